"""The words for a summary, for tools/explain and tools/report: which actions, and whether its opening, can break each policy.

It marks nothing itself. It holds the printed lines to the checker's answer and to the sheets: a mark needs a sandbox of its policy, an
edge of it to an offending state, and a node that makes its action. That no other step breaks a policy is the program's word.
"""

from explanations import explain_check
from folders import ALLOWED, NAMES, REFUSED, Differs, printed_rows, read_sheets, visible
from names import broken_by, mark_words
from sheets import CREATE, EVENT, FRESH, NAMED, OFFENDING, OPEN, OPENING, OUTLINE_SHEET, POLICIES, SANDBOX, STATIC

HEAD = "policy action"


def printed_marks(text):
    """The (policy, action) of each line that was printed."""
    lines = text.split("\n")
    if lines[0] != HEAD or lines.pop() != "":
        raise Differs(f"the summary does not begin with '{HEAD}' or does not end with a line feed")
    marks = []
    for line in lines[1:]:
        values = line.split(" ")
        if len(values) != 2 or not all(value.isascii() and value.isdigit() and str(int(value)) == value for value in values):
            raise Differs(f"'{visible(line)}' was printed, which is not a policy and an action")
        marks.append((int(values[0]), int(values[1])))
    if any(policy >= POLICIES or action > OPENING for policy, action in marks) or marks != sorted(set(marks)):
        raise Differs("the marks are not policies and actions in rising order")
    return marks


def makers(nodes, policy, action):
    """The nodes that make the step of a mark."""
    kinds = {OPENING: (SANDBOX,), CREATE: (STATIC, NAMED, FRESH)}.get(action, (STATIC, NAMED))
    made = lambda node: {SANDBOX: policy, FRESH: CREATE}.get(node[1], node[2])
    wanted = policy if action == OPENING else action
    return [place for place, node in enumerate(nodes) if node[1] in kinds and made(node) == wanted]


def held(policies, nodes, marks, row):
    """The marks were printed for these tables, and the checker's line is `row`."""
    lowest = marks[0][0] if marks else None
    if lowest != (None if row[1] == ALLOWED else row[2]):
        raise Differs("the checker's answer is not the lowest policy that the summary marks")
    for policy, action in marks:
        if not any(edge[0] == policy and edge[5] in OFFENDING for edge in policies.edges):
            raise Differs(f"policy {policy} is marked, but it has no edge to an offending state")
        if not makers(nodes, policy, OPENING) or not makers(nodes, policy, action):
            raise Differs(f"policy {policy} is marked with {action}, but the outline does not open it or makes no such step")


def of_outline(folder, text, row):
    """The marks of an accepted sheet of an outline, of which the checker printed `row`, after they were held to both."""
    tables, _ = read_sheets(folder, OUTLINE_SHEET)
    if tables is None:
        raise Differs("there are marks of a refused sheet")
    marks = printed_marks(text)
    held(*tables, marks, row)
    return marks


def marked_policies(marks):
    return sorted({policy for policy, _ in marks})


def at_nodes(nodes, marks):
    """For each node that makes a step of a mark, the policies that are marked with it."""
    found = {}
    for policy, action in marks:
        for place in makers(nodes, policy, action):
            found.setdefault(place, []).append(policy)
    return found


def held_to_run(marks, policy, last):
    """The last step of a shortest run that breaks a policy is marked for it."""
    kind, a, _ = last
    if (policy, a if kind == EVENT else OPENING) not in marks or (kind != EVENT and [kind, a] != [OPEN, policy]):
        raise Differs("the last step of the counterexample is not marked")


def explain(folder, text, checked):
    """The names line, the printed lines with their words, and the words after them."""
    rows = printed_rows(checked)
    verdict = explain_check(folder, rows)
    if rows[0][1] > REFUSED:
        if text != checked:
            raise Differs("a sheet is refused, and the summary is not printed as the checker prints that")
        return NAMES, verdict, []
    marks = of_outline(folder, text, rows[0])
    nodes = read_sheets(folder, OUTLINE_SHEET)[0][1]
    told = []
    for policy, action in marks:
        places = ", ".join(OUTLINE_SHEET.node(place) for place in makers(nodes, policy, action))
        told.append(((policy, action), [f"  {folder.names.tell('policy', policy)}: {mark_words(folder.names, action)}, at {places}"]))
    if not marks:
        return HEAD, told, [f"{OUTLINE_SHEET.file}: accepted: no run leaves a policy open and broken, so nothing is marked"]
    return HEAD, told, [f"{OUTLINE_SHEET.file}: {broken_by(folder.names, marks, policy)}." for policy in marked_policies(marks)]
