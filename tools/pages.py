"""What the page of `./wiforekun report` shows of each step, for tools/report: derived from the sheets, and held to what was printed.

Resources whose instances may be in the same states are put together, so that a page with hundreds of resources stays small.
"""

import counterexamples
import runs
import sheets
from explanations import followed
from folders import REFUSED, VIOLATED
from instances import UNSEEN
from names import step_words
from sheets import RETIRE
from violations import Run

# so many steps are looked for in the outline, and so many resources are told by name
MOST_SOUGHT, MOST_NAMED = 700, 4
# and of the pairs of resources in the same states so many x
MOST_ROWS = 6


def ranges(numbers):
    """Numbers as 16, 18 to 20."""
    found = []
    for number in sorted(numbers):
        if found and found[-1][1] == number - 1:
            found[-1][1] = number
        else:
            found.append([number, number])
    told = [str(first) if first == last else f"{first}, {last}" if last == first + 1 else f"{first} to {last}" for first, last in found]
    return ", ".join(told) if len(told) <= 12 else ", ".join(told[:10]) + f" and on ({len(numbers)} in all)"


def resources(names, numbers):
    """Resources in words: with their names where they are few."""
    if len(numbers) > MOST_NAMED:
        return ranges(numbers)
    return "; ".join(names.tell("resource", number)[len("resource ") :] for number in sorted(numbers))


def single_states(run, policy):
    """The resources, seen ones by what their instances may be in, and the states."""
    past, groups = run.past, {}
    for x in past.seen:
        groups.setdefault((x in past.retired, past.may_be_in(policy, (x,))), []).append(x)
    told = [
        [resources(run.names, numbers) + (" (retired)" if retired else ""), sorted(found)]
        for (retired, found), numbers in sorted(groups.items(), key=lambda group: min(group[1]))
    ]
    return told + [["any other", sorted(past.may_be_in(policy, (UNSEEN,)))]]


def pair_states(run, policy):
    """The pairs of resources, by what their instances may be in where that is not what those of all others may be in: for each x the y."""
    past, groups = run.past, {}
    rest = past.may_be_in(policy, (UNSEEN, UNSEEN))
    for (x, y), found in past.states[policy].items():
        if found != rest:
            groups.setdefault(found, {}).setdefault(x, []).append(y)
    return [[pairs_words(group), sorted(found)] for found, group in groups.items()] + [["any others", sorted(rest)]]


def pairs_words(group):
    """As `x 16: y 17, 18 or any other`."""
    told = []
    for x, ys in sorted(group.items(), key=lambda row: (row[0] is UNSEEN, row[0])):
        numbers = [y for y in ys if y is not UNSEEN]
        seconds = ([ranges(numbers)] if numbers else []) + ["any other"] * (UNSEEN in ys)
        told.append(f"x {'any other' if x is UNSEEN else x}: y {' or '.join(seconds)}")
    return "; ".join(told) if len(told) <= MOST_ROWS else "; ".join(told[:MOST_ROWS]) + f"; and for {len(told) - MOST_ROWS} more x"


def states(run):
    """For each policy with an edge: whose instances may be in what."""
    each = lambda policy: pair_states(run, policy) if policy in run.past.pairs else single_states(run, policy)
    return {policy: each(policy) for policy in range(sheets.POLICIES) if run.past.edges[policy]}


def shown(run, line, step, row, words, node):
    """One step as the page shows it."""
    past = run.past
    return {
        "line": line, "step": " ".join(str(value) for value in step), "words": step_words(run.names, step),
        "answer": row[1], "detail": row[2], "why": "\n".join(words),
        "open": [policy for policy, _ in past.unclosed], "live": resources(run.names, past.live()),
        "retired": resources(run.names, list(past.retired)), "states": states(run), "node": node,
    }


def start(run):
    """What everything is in before the first step."""
    return {"open": [], "live": "", "retired": "", "states": states(run), "why": ""}


def makers(nodes, steps, rows):
    """The node that makes each step, by its place, where the steps that were not refused are a run of the outline."""
    places = [place for place, row in enumerate(rows) if row[1] != REFUSED]
    if nodes is None or len(places) > MOST_SOUGHT:
        return {}
    moves = runs.path(nodes, [steps[place] for place in places]) or []
    return {places[move.step]: move.node for move in moves if move.step is not None}


def trace_run(folder, policies, steps, rows, nodes):
    """The trace, step by step."""
    run = Run(folder, policies, steps)
    found = makers(nodes, steps, rows)
    begun = start(run)
    out = [shown(run, line, step, row, words, found.get(line - 2)) for line, step, row, words in followed(run, rows)]
    path = "" if found or not nodes or not any(step[0] != RETIRE for step in steps) else "The trace is no run of the outline."
    return {"name": folder.trace_name, "start": begun, "steps": out, "note": path if len(rows) <= MOST_SOUGHT else ""}


def counterexample_run(folder, policies, nodes, steps, policy, told, after, rows):
    """The counterexample, step by step, with no limits and no halt: else a policy that breaks first would hide the one that is named."""
    run = Run(folder, policies, steps)
    found = {move.step: move.node for move in runs.path(nodes, steps) if move.step is not None}
    begun, out = start(run), []
    for (line, step), row in zip(counterexamples.followed(run, policy), rows):
        words = [told[line - 2][1][0].strip()] + (after if line == len(steps) + 1 else [])
        out.append(shown(run, line, step, row, words, found[line - 2]))
    return {"name": "counterexample", "start": begun, "steps": out, "note": ""}


def verdict_class(line, rows):
    """Whether a verdict is good, bad or between, for its colour."""
    answers = {row[1] for row in rows}
    if VIOLATED in answers:
        return "bad"
    return "warn" if any(answer >= REFUSED for answer in answers) or line.endswith("not there.") else "good"
