"""The words for what the routine desk printed, for tools/explain: which judge gave each answer, where the routine left its outline, and what the
outline would have allowed there.

The places at which the routine may be are found from the sheets alone. Where that does not lead to what was printed there are no words, but a
`Differs`.
"""

import re

import sheets
from explanations import followed
from folders import ALLOWED, REFUSED, VIOLATED, Differs, read_sheets, same, sheet_refused, visible
from names import node_words, step_words
from sheets import BACK, CLOSE, CREATE, EITHER, END, EVENT, FRESH, LOOP, NAMED, OPEN, OUTLINE_SHEET, RETIRE, SANDBOX, STATIC, STATICS, THEN
from verdicts import outline_words, sheet_words, trace_words
from violations import Run

NAMES = "line answer detail lean"
MOST_POSITIONS, MOST_PARTS = 64, 16
UNNAMED = (None, None, None, None)


class Positions:
    """All lists of parts that runs with the steps so far can hold. A part is a node with what each name means, or the closing of a policy; the
    first part is in front. `all` is none once there are more than 64, or one has more than 16 parts."""

    def __init__(self, nodes):
        self.nodes = nodes
        self.all = self.settled({((0, UNNAMED),)})

    def take(self, step):
        """One step more; a retiring moves nothing."""
        if self.all is not None and step[0] != RETIRE:
            self.all = self.settled(self.led_to(step))

    def has(self, step):
        """Is the routine on the outline with this step?"""
        if self.all is None:
            return False
        return bool(self.all) if step[0] == RETIRE else bool(self.led_to(step))

    def settled(self, found):
        """With what moves that add no step lead to."""
        left = list(found)
        while left:
            if len(found) > MOST_POSITIONS or any(len(parts) > MOST_PARTS for parts in found):
                return None
            new = [parts for parts in self.silent(left.pop()) if parts not in found]
            found.update(new)
            left += new
        return found

    def silent(self, parts):
        if not parts or parts[0][0] is None:
            return []
        (number, meaning), rest = parts[0], parts[1:]
        _, kind, a, b = self.nodes[number]
        if kind == END:
            return [rest]
        if kind == THEN:
            return [((a, meaning), (b, meaning)) + rest]
        if kind == EITHER:
            return [((a, meaning),) + rest, ((b, meaning),) + rest]
        return [((a, meaning),) + rest] if kind in (LOOP, BACK) else []

    def led_to(self, step):
        """What moves that add this step lead to."""
        found = set()
        for parts in self.all:
            for made, _, after in self.offered(parts):
                if made == step:
                    found.add(after)
                elif made[:2] == (EVENT, CREATE) == step[:2] and step[2] >= STATICS:
                    found.add(after(step[2]))
        return found

    def offered(self, parts):
        """The step that the first part adds, its node, and the parts then. Of a create on any new resource that is a function of it."""
        if not parts:
            return []
        (number, meaning), rest = parts[0], parts[1:]
        if number is None:
            return [((CLOSE, meaning, 0), None, rest)]
        _, kind, a, b = self.nodes[number]
        if kind == STATIC:
            return [((EVENT, a, b), number, rest)]
        if kind == NAMED:
            return [((EVENT, a, meaning[b]), number, rest)]
        if kind == SANDBOX:
            return [((OPEN, a, 0), number, ((b, meaning), (None, a)) + rest)]
        if kind == FRESH:
            given = lambda resource: tuple(resource if name == a else means for name, means in enumerate(meaning))
            return [((EVENT, CREATE, None), number, lambda resource: ((b, given(resource)),) + rest)]
        return []

    def next_steps(self):
        """What could come next, each once: (node or none, step), by the node; closings come last."""
        found = {(number, made) for parts in self.all for made, number, _ in self.offered(parts)}
        return sorted(found, key=lambda pair: (pair[0] is None, pair[0] or 0, pair[1][1], pair[1][2] or 0))


def rows_of(text):
    """The rows of four numbers that the desk's program printed after its names line."""
    lines = text.split("\n")
    if lines[0] != NAMES or lines.pop() != "":
        raise Differs(f"what was printed does not begin with '{NAMES}' or does not end with a line feed")
    wrong = [line for line in lines[1:] if not re.fullmatch(r"[0-9]+ [0-5] [0-9]+ [01]", line)]
    if wrong:
        raise Differs(f"'{visible(wrong[0])}' was printed, which is not four numbers")
    return [tuple(int(value) for value in line.split(" ")) for line in lines[1:]]


def explain(folder, text):
    """The printed lines, each with its words, and the lines at the end."""
    rows = rows_of(text)
    tables = {}
    for kind in (OUTLINE_SHEET, sheets.TRACE_SHEET):
        found, refused = read_sheets(folder, kind)
        if refused:
            kind, why = refused
            same((why.line, kind.answer, why.number, 0), rows[0] if len(rows) == 1 else None, kind.file)
            return [(rows[0][:3], sheet_refused(folder, kind, why))], [sheet_words(kind, rows[0], "nothing was judged")]
        policies, tables[kind] = found
    if not rows or rows[0][0] != 0 or rows[0][1] not in (ALLOWED, VIOLATED):
        raise Differs("what the check says of the outline was not printed")
    walk = Walk(folder, tables[OUTLINE_SHEET])
    run = Run(folder, policies, [tuple(step) for step in tables[sheets.TRACE_SHEET]])
    judged = followed(run, [row[:3] for row in rows[1:]])
    told = [(row, words + walk.words(line, step, row, lean[3])) for (line, step, row, words), lean in zip(judged, rows[1:])]
    return told, walk.ending(rows[0]) + [trace_words(folder, [row[:3] for row in rows[1:]])]


class Walk:
    """The routine along its outline: which lines each judge answered, and why the lean one no longer does."""

    def __init__(self, folder, nodes):
        self.folder = folder
        self.nodes = nodes
        self.positions = Positions(nodes)
        self.judges = []
        self.since = None if self.positions.all is not None else "before the first step already"

    def at(self, line):
        return f"{self.folder.trace_name}:{line}"

    def words(self, line, step, row, lean):
        """What is to be said at a step: where the routine leaves the outline, or is at too many places of it."""
        if row[1] == REFUSED:
            same((0,), (lean,), f"{self.at(line)}, which is refused, and by which judge")
            return []
        on = self.positions.has(step)
        same((int(on),), (lean,), f"{self.at(line)}, and by which judge")
        self.judges.append((line, on))
        if row[1] != ALLOWED:
            return self.strays(line, step) if not on and self.positions.all else []
        before = self.positions.all
        out = self.strays(line, step) if before and not on else []
        self.positions.take(step)
        if before and self.positions.all is None:
            self.since = f"after line {line}"
            out = [f"{self.at(line)}: after this step {OUTLINE_SHEET.file} has more than {MOST_POSITIONS} places at which the routine may be, or one with "
                   f"more than {MOST_PARTS} parts still to run", "  from the next step on the full judge answers"]
        return out

    def strays(self, line, step):
        """The first step that the outline does not have, and what it has there."""
        names = self.folder.names
        out = [f"{self.at(line)}: strays from {OUTLINE_SHEET.file}: from here on the full judge answers"]
        out += self.folder.quote(sheets.TRACE_SHEET, line, step_words(names, step))
        offered = self.positions.next_steps()
        if not offered:
            return out + ["  the outline has no step more here"]
        out.append("  the outline would have allowed here:")
        for number, made in offered:
            if number is None:
                out.append(f"    {step_words(names, made)}, the end of its sandbox")
                continue
            node = self.nodes[number]
            words = node_words(names, node) + (f", which is {names.tell('resource', made[2])}" if node[1] == NAMED else "")
            out += self.folder.quote(OUTLINE_SHEET, number + 2, words, 4)
        return out

    def ending(self, verdict):
        """The check's verdict, and which judge answered which lines."""
        checked = outline_words(self.folder, verdict[:3])
        if verdict[1] == VIOLATED:
            checked += " It is kept all the same."
        out = [checked]
        if self.since:
            out.append(f"{OUTLINE_SHEET.file}: {self.since} there are more than {MOST_POSITIONS} places at which the routine may be, or one with more than "
                       f"{MOST_PARTS} parts still to run.")
        for judge, on in (("lean", True), ("full", False)):
            lines = [line for line, by in self.judges if by == on]
            if lines:
                out.append(f"by the {judge} judge: {spans(lines, [line for line, _ in self.judges])}.")
        return out


def spans(lines, judged):
    """Lines as spans, as `lines 2 to 4`; refused steps between two of them part none."""
    found = []
    for line in lines:
        if found and judged.index(line) == judged.index(found[-1][1]) + 1:
            found[-1][1] = line
        else:
            found.append([line, line])
    told = [f"line {first}" if first == last else f"lines {first} to {last}" for first, last in found]
    return ", ".join(told)
