"""The words for a step that is violated: whose instance breaks the policy, how it came there, since when the policy is open."""

import sheets
from folders import Differs
from instances import START, UNSEEN, Past
from names import edge_words, step_words
from sheets import OFFENDING


class Run:
    """A trace as far as it was judged: the past, and what was refused so far."""

    def __init__(self, folder, policies, steps):
        self.folder = folder
        self.names = folder.names
        self.steps = steps
        self.past = Past(policies)
        self.halted = None
        self.refused = {}
        # the numbers that were told in full
        self.told = set()

    def at(self, line):
        return f"{self.folder.trace_name}:{line}"

    def quoted(self, line, indent=2, width=0):
        """A step above, as it is quoted."""
        words = step_words(self.names, self.steps[line - 2])
        return self.folder.quote(sheets.TRACE_SHEET, line, words, indent, width)


# so many other instances of two resources are told
MOST_TOLD = 6


def unseen_words(run, article):
    return f"{article} resource that is in no step so far, such as {run.past.unseen_number()}"


def resource_words(run, x):
    if x is UNSEEN:
        return unseen_words(run, "a")
    retired = f", which was retired at {run.at(run.past.retired[x])}" if x in run.past.retired else ""
    return run.names.tell("resource", x) + retired


def instance_words(run, instance, told=str):
    """As `x = 16`, `x = y = 16` or `x = 16 and y = 17`, each resource in these words."""
    each = [unseen_words(run, "any") if x is UNSEEN else told(x) for x in instance]
    if len(instance) == 1:
        return f"x = {each[0]}"
    if instance == (UNSEEN, UNSEEN):
        return f"any x and y that are in no step so far, such as x = y = {run.past.unseen_number()}"
    if instance[0] == instance[1]:
        return f"x = y = {each[0]}"
    return f"x = {each[0]}{',' if ',' in each[0] else ''} and y = {each[1]}"


def breaker_words(run, instance):
    """Whose instance breaks a policy, with the names."""
    if len(instance) == 1:
        return resource_words(run, *instance)
    return instance_words(run, instance, lambda x: resource_words(run, x)[len("resource ") :])


def start_words(run, policy, x):
    """Where an instance was in state 0 at first, as far as the past counts."""
    resets = run.past.resets[policy]
    if not resets:
        return ["    begins in state 0"]
    line = resets[-1]
    before = next(move.before for move in run.past.moves(policy, x) if move.line == line)
    verb = "begins in" if before == START else "is put back to"
    return [f"    {verb} state 0 at {run.at(line)}, where policy {policy} is opened: the sheet is local, so what was before does not count"]


def retirings(run, instance):
    """The lines at which resources of an instance are retired, each once, and what is said of them."""
    found = {run.past.retired[x]: f"its {name}, {x}," for name, x in reversed(list(zip("xy", instance))) if x in run.past.retired}
    return {line: "its resource" for line in found} if len(set(instance)) == 1 else dict(sorted(found.items()))


def retired_words(run, retired, after, before=None):
    """That an instance goes on, where a resource of it was retired between these two lines."""
    out = []
    for line, what in retired.items():
        if after < line and (before is None or line <= before):
            told = f"    {what} is retired at {run.at(line)}: no step can be on it any more, but the instance still counts"
            out += [told, *run.quoted(line, 6)]
    return out


def whichever(run, policy, way):
    """Does every instance move along this way, whatever its resources? So it is where each edge names a static resource."""
    edges = dict(run.past.edges[policy])
    return all(edges[edge][3] == sheets.ON_STATIC for _, _, edge, _ in way)


def whichever_words(run, policy):
    return "whichever resources x and y are" if policy in run.past.pairs else "whichever resource x is"


def way_words(run, policy, x):
    """The moves of an instance from where it was in state 0 into an offending state, each with the step and the edge quoted."""
    way = run.past.way(policy, x)
    if way is None:
        raise Differs(f"no moves of the instance of {instance_words(run, x)} lead to an offending state of policy {policy}")
    edges = dict(run.past.edges[policy])
    out = [f"  why: the instance of policy {policy} for {instance_words(run, x)}"]
    retired = retirings(run, x)
    if whichever(run, policy, way):
        out, retired = [f"  why: the instance of policy {policy}, {whichever_words(run, policy)},"], {}
    begin = max(run.past.resets[policy], default=0)
    out += retired_words(run, retired, 0, begin) + start_words(run, policy, x)
    for move, start, edge, to in way:
        out += retired_words(run, retired, begin, move.line)
        begin = move.line
        offending = ", which is offending," if to in OFFENDING else ""
        out.append(f"    moves from state {start} to state {to}{offending} at {run.at(move.line)} by {sheets.POLICY_SHEET.file}:{edge}")
        width = max(len(str(move.line)), len(str(edge)))
        out += run.quoted(move.line, 6, width)
        out += run.folder.quote(sheets.POLICY_SHEET, edge, edge_words(run.names, edges[edge], run.past.pairs), 6, width)
        if len(move.after) > 1:
            others = [str(state) for state in sorted(move.after - {to})]
            out.append(f"      (it may also be in state {sheets.listed(others)})")
    out += retired_words(run, retired, begin)
    left = run.past.moves(policy, x)
    if left and left[-1].line != way[-1][0].line and way[-1][3] in OFFENDING:
        out.append("    and has not left that state since")
    return out, way


def open_words(run, policy, way):
    """Since when the policy is open, and whether the past before the opening counted."""
    since = run.past.openings(policy)[0]
    opened, closed = run.past.counts[policy]
    counts = f" ({sheets.counted(opened, 'opening')}, {sheets.counted(closed, 'closing')})" if opened > 1 else ""
    early = "; what happened before the opening counts too" if way[0][0].line < since else ""
    return [f"  policy {policy} is open since {run.at(since)}{counts}{early}"] + run.quoted(since, 4)


def other_pairs_words(run, policy, instance, found):
    """Which other instances of two resources break the policy too."""
    resource = lambda x: "any other" if x is UNSEEN else f"{x} (retired)" if x in run.past.retired else str(x)
    found = sorted((other for other in found if other != instance), key=lambda other: (other.count(UNSEEN), [x or 0 for x in other]))
    others = [f"({', '.join(map(resource, other))})" for other in found]
    if len(others) > MOST_TOLD:
        others = others[:MOST_TOLD] + [f"{len(others) - MOST_TOLD} more"]
    verb = "breaks" if len(others) == 1 else "break"
    return [f"  (x, y) = {sheets.listed(others)} {verb} policy {policy} too"] if others else []


def others_words(run, policy, instance, found):
    """Whose instances break the policy too."""
    if policy in run.past.pairs:
        return other_pairs_words(run, policy, instance, found)
    (x,), found = instance, [y for (y,) in found]
    retired = lambda y: " (retired)" if y in run.past.retired else ""
    others = [f"{y}{retired(y)}" for y in sorted(y for y in found if y is not UNSEEN and y != x)]
    unseen = UNSEEN in found and x is not UNSEEN
    if not others:
        return [f"  every resource that is in no step so far breaks policy {policy} too"] if unseen else []
    told = f"resource {others[0]} breaks" if len(others) == 1 else f"resources {sheets.listed(others)} break"
    return [f"  {told} policy {policy} too" + (", and so does every resource that is in no step so far" if unseen else "")]


def violated(run, line, step, policy, what="violated"):
    """A step after which the policy is open and broken, and why it is broken."""
    x, found = run.past.breaker(policy, step), run.past.breakers(policy)
    why, way = way_words(run, policy, x)
    every = whichever(run, policy, way)
    by = f", {whichever_words(run, policy)}" if every else f" by {breaker_words(run, x)}"
    out = [f"{run.at(line)}: {what}: {run.names.tell('policy', policy)} is open and broken{by}"]
    out += run.quoted(line)
    return out + why + open_words(run, policy, way) + ([] if every else others_words(run, policy, x, found))
