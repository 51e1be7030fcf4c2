"""The picture of a trace over a policy: the states that instances went through, step by step. Plain SVG, made here."""

import sys

import canvas as drawing
import sheets
from canvas import GREY, INK, RED, Canvas
from explanations import followed
from folders import REFUSED, VIOLATED, printed_rows
from instances import UNSEEN, Reset
from labels import step_label
from sheets import OFFENDING, OPEN
from violations import Run

COLUMN, ROW = 64, 34
LEFT, TITLE, GAP, FOOT = 70, 30, 26, 34
# labels stand at a slant; about so wide is a letter of theirs, along it and upwards
SLANT, ALONG, UPWARDS = 38, 5.2, 4.1
MOST_STEPS = 200
# so many instances of two resources are drawn, where none is asked for
MOST_PAIRS = 6


def read_answers(path):
    """The rows that the monitor printed."""
    if path is None:
        raise ValueError("a trace is drawn with --answers FILE, what the monitor printed for it (docs/SHEETS.md)")
    with sys.stdin.buffer if path == "-" else open(path, "rb") as file:
        return printed_rows(file.read().decode("latin-1"))


class Column:
    """One step of the trace: what it is, what was answered, and whether each policy is open after it."""

    def __init__(self, step, row, past):
        self.step = step
        self.line, self.answer, self.detail = row
        self.open = [bool(past.openings(policy)) for policy in range(sheets.POLICIES)]

    def told(self):
        return {VIOLATED: "violated", REFUSED: f"refused {self.detail}"}.get(self.answer, "allowed")


def chosen(arguments, columns, past):
    """The policy and the resources to draw."""
    violated = [column for column in columns if column.answer == VIOLATED]
    policy = arguments.policy
    if policy is None:
        opened = [column.step[1] for column in columns if column.step[0] == OPEN]
        drawn = [number for number in range(sheets.POLICIES) if past.edges[number]]
        policy = violated[0].detail if violated else min([p for p in opened if p in drawn] or drawn or [0])
    number = 2 if policy in past.pairs else 1
    if any(len(instance) != number for instance in arguments.resource):
        raise ValueError(f"policy {policy} is about {sheets.counted(number, 'resource')}: --resource " + "X,Y"[: 2 * number - 1])
    if arguments.resource:
        return policy, arguments.resource
    if violated and past.breakers(policy):
        return policy, [past.breaker(policy, violated[0].step)]
    known = [(x,) for x in sorted(past.seen)] if number == 1 else sorted(pair for pair in past.states[policy] if UNSEEN not in pair)
    moved = [instance for instance in known if any(edge for move in past.moves(policy, instance) for _, edge, _ in move.steps)]
    return policy, moved[: MOST_PAIRS if number == 2 else None] or [(UNSEEN,) * number]


def resource_words(names, past, x):
    return f"{past.unseen_number()}, as any that is in no step" if x is UNSEEN else names.tell("resource", x)[len("resource ") :]


def is_retired(past, instance, line):
    """Can no step be on a resource of the instance any more?"""
    return all(past.retired.get(x, line + 1) <= line for x in instance)


def centre(number):
    """Where column NUMBER stands; 0 is the start."""
    return LEFT + COLUMN // 2 + number * COLUMN


def put_labels(canvas, columns, names, top):
    canvas.text(centre(0), top - 12, "start", text_anchor="middle")
    for number, column in enumerate(columns, 1):
        place = f"rotate(-{SLANT} {centre(number) - 4} {top - 16})"
        colour = GREY if column.answer == REFUSED else "#333333"
        canvas.text(centre(number) - 4, top - 16, step_label(names, column.step), transform=place, fill=colour)
        canvas.text(centre(number), top - 2, str(column.line), 10, text_anchor="middle", fill=GREY)


def put_ground(canvas, columns, policy, states, top):
    """While the policy is open, up to a violation; the rows of the states, offending ones in red."""
    height = ROW * len(states)
    for number, column in enumerate(columns, 1):
        if column.open[policy]:
            canvas.put("rect", x=centre(number) - COLUMN // 2, y=top, width=COLUMN, height=height, fill="#fff1d6")
        if column.answer == VIOLATED:
            break
    for row, state in enumerate(reversed(states)):
        y = top + row * ROW + ROW // 2
        colour = RED if state in OFFENDING else "#333333"
        line = "#e7b7bc" if state in OFFENDING else "#e3e7ec"
        canvas.put("line", x1=LEFT, y1=y, x2=centre(len(columns)) + COLUMN // 2, y2=y, stroke=line)
        canvas.text(LEFT - 10, y + 4, f"state {state}", text_anchor="end", fill=colour)


def put_dot(canvas, number, y, state, hollow=False):
    colour = RED if state in OFFENDING else INK
    fill = "white" if hollow else "#fde8ea" if state in OFFENDING else "#eef4fb"
    canvas.put("circle", cx=centre(number), cy=y, r=6, fill=fill, stroke=colour, stroke_width=1.6)


def put_moves(canvas, columns, past, policy, instance, height_of):
    """The states of one instance after each step, and what led from one to the next."""
    moves = {move.line: move for move in past.moves(policy, instance)}
    states = frozenset([0])
    put_dot(canvas, 0, height_of(0), 0)
    for number, column in enumerate(columns, 1):
        move = moves.get(column.line)
        steps = move.steps if move else [(state, None, state) for state in sorted(states)]
        for state, edge, to in steps:
            stays = edge is None and state == to
            colour = GREY if stays else RED if to in OFFENDING else INK
            y1, y2 = height_of(state), height_of(to)
            width = 1 if stays else 2
            dashes = {"stroke_dasharray": "4 3"} if isinstance(move, Reset) else {}
            canvas.put("line", x1=centre(number - 1) + 6, y1=y1, x2=centre(number) - 6, y2=y2, stroke=colour, stroke_width=width, **dashes)
            if edge is not None:
                # beside the line, on the side that it slopes away from
                side, anchor = {-1: (-4, "end"), 0: (0, "middle"), 1: (4, "start")}[(y2 > y1) - (y2 < y1)]
                canvas.text(centre(number) - COLUMN // 2 + side, (y1 + y2) // 2 - 5, f"edge {edge}", 10, text_anchor=anchor, fill=colour)
        states = move.after if move else states
        for state in sorted(states):
            put_dot(canvas, number, height_of(state), state, is_retired(past, instance, column.line))
        if column.answer == VIOLATED:
            return


def put_answers(canvas, columns, y):
    for number, column in enumerate(columns, 1):
        colour = {VIOLATED: RED, REFUSED: GREY}.get(column.answer, "#3b7a40")
        canvas.text(centre(number), y, column.told(), 10, text_anchor="middle", fill=colour)


def trace(folder, steps, arguments):
    """The picture of a trace. What the monitor printed is held to the sheets, as in the explanations."""
    if len(steps) > MOST_STEPS:
        raise ValueError(f"a trace of at most {MOST_STEPS} steps can be drawn")
    try:
        policies = sheets.Policies(folder.data[sheets.POLICY_SHEET])
    except sheets.Refused as wrong:
        raise ValueError(f"policies.txt, {wrong}") from None
    names, run = folder.names, Run(folder, policies, steps)
    columns = [Column(step, row, run.past) for _, step, row, _ in followed(run, read_answers(arguments.answers))]
    past = run.past
    policy, instances = chosen(arguments, columns, past)
    states = sorted({0} | {state for _, edge in past.edges[policy] for state in (edge[1], edge[5])})
    canvas = Canvas()
    longest = max([len(step_label(names, column.step)) for column in columns], default=0)
    panel, labels = TITLE + ROW * len(states) + GAP, 34 + int(UPWARDS * longest)
    width, height = centre(len(columns)) + COLUMN + int(ALONG * longest), labels + panel * len(instances) + FOOT
    put_labels(canvas, columns, names, labels)
    for number, instance in enumerate(instances):
        top = labels + number * panel + TITLE
        told = " and ".join(f"{name} = {resource_words(names, past, x)}" for name, x in zip("xy", instance))
        title = f"{names.tell('policy', policy)}, the instance for {told}"
        canvas.text(LEFT, top - 8, title, 13, font_weight="bold")
        put_ground(canvas, columns, policy, states, top)
        height_of = lambda state, top=top: top + ROW * (len(states) - 1 - states.index(state)) + ROW // 2
        put_moves(canvas, columns, past, policy, instance, height_of)
    put_answers(canvas, columns, labels + panel * len(instances) + 2)
    key = f"shaded: policy {policy} is open.  edge N: line N of policies.txt"
    if policies.local:
        key += ".  dashed: the sheet is local, and the opening puts the instance back to state 0"
    if any(is_retired(past, instance, max(past.retired.values(), default=0)) for instance in instances):
        key += ".  hollow: the resource is retired, and its instance still counts"
    width = max(width, LEFT + int(ALONG * len(key)) + COLUMN)
    canvas.text(LEFT, height - 12, key, 11, fill="#666666")
    return drawing.file(canvas.picture(width, height))
