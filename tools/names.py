"""names.txt, and what steps, edges and nodes say in words with its names."""

import os
import re

from sheets import BACK, CLOSE, CREATE, EITHER, END, EVENT, FRESH, LAST_ACTION, LAST_RESOURCE, LOOP, NAMED, ON_OTHERS, ON_STATIC, ON_X
from sheets import ON_Y, OPEN, OPENING, OUTLINE_SHEET, POLICIES, RETIRE, SANDBOX, STATIC, STATICS, THEN


UTF_16 = "a byte-order mark of UTF-16"
BYTE_ORDER_MARKS = {b"\xef\xbb\xbf": "a byte-order mark (bytes EF BB BF)", b"\xff\xfe": UTF_16, b"\xfe\xff": UTF_16}


def file_hints(data, line):
    """What an editor put into a file besides its text: a byte-order mark at its beginning, a carriage return at the end of a line."""
    marks = [words for mark, words in BYTE_ORDER_MARKS.items() if data.startswith(mark)]
    found = [f"it begins with {words}; save it as plain text without one" for words in marks]
    if line.endswith(b"\r"):
        found.append("lines end with carriage return and line feed (CRLF); save it with line feeds alone (LF)")
    return found


class Names:
    """The words of names.txt for the numbers of actions, resources and policies."""

    HEAD = "what number name"
    LAST = {"action": LAST_ACTION, "resource": LAST_RESOURCE, "policy": POLICIES - 1}

    def __init__(self):
        self.words = {}
        self.faults = []
        self.fresh = {}

    @classmethod
    def of_folder(cls, folder):
        """The names of a folder. A line that can't be used is left out, and told of in `faults`."""
        names = cls()
        try:
            with open(os.path.join(folder, "names.txt"), "rb") as file:
                data = file.read()
        except FileNotFoundError:
            return names
        except OSError as wrong:
            names.faults.append(f"names.txt: {wrong.strerror}")
            return names
        names.faults += [f"names.txt: {hint}" for hint in file_hints(data, data.partition(b"\n")[0])]
        lines = data.decode("utf-8-sig", "replace").replace("\r\n", "\n").split("\n")
        if lines[0] != cls.HEAD:
            names.faults.append(f"names.txt:1: the first line must be '{cls.HEAD}'; the names are not used")
            return names
        for at, line in enumerate(lines[1:] if lines[-1] else lines[1:-1], 2):
            names.add(at, line)
        return names

    def add(self, at, line):
        found = re.fullmatch(r"(\w+) ([0-9]{1,10}) (\S.*)", line)
        what, number, name = found.groups() if found else (None, "0", "")
        if what not in self.LAST or int(number) > self.LAST[what]:
            kinds = ", ".join(f"{kind} 0 to {last:,}" for kind, last in self.LAST.items())
            self.faults.append(f"names.txt:{at}: not a kind, a number and a name ({kinds}); the line is not used")
        elif not name.isprintable():
            self.faults.append(f"names.txt:{at}: a name of printable characters only; the line is not used")
        elif (what, int(number)) in self.words:
            self.faults.append(f"names.txt:{at}: {what} {number} has a name already; the line is not used")
        else:
            self.words[what, int(number)] = name.strip()

    def of_outline(self, fresh):
        """The same names, but for dynamic resources, which are numbered otherwise in a run of the outline than in a trace: these are told
        by the fresh node that gave each."""
        names = Names()
        names.words = {key: name for key, name in self.words.items() if key[0] != "resource" or key[1] < STATICS}
        names.fresh = fresh
        return names

    def get(self, what, number):
        """The name alone, or none. Action 0 is create, whatever it is called."""
        return self.words.get((what, number)) or ("create" if (what, number) == ("action", CREATE) else None)

    def tell(self, what, number):
        """As `action 4 'drive'`, or `action 4` where it has no name."""
        name = self.get(what, number)
        if what == "resource" and number in self.fresh:
            node, _, given, _ = self.fresh[number]
            return f"resource {number}, name {given} of {OUTLINE_SHEET.node(node)}"
        return f"{what} {number} '{name}'" if name else f"{what} {number}"


def step_words(names, step):
    """What a step says."""
    kind, a, b = step
    if kind == EVENT:
        return f"{names.tell('action', a)} on {names.tell('resource', b)}"
    if kind == RETIRE:
        return f"retire {names.tell('resource', a)}"
    return {OPEN: "open ", CLOSE: "close "}[kind] + names.tell("policy", a)


def seen_words(names, on, who, pair):
    """On what resource an edge is, of a policy about one resource or two."""
    others = "a resource other than x and y" if pair else "a resource other than x"
    return {ON_STATIC: names.tell("resource", who), ON_X: "x", ON_Y: "the second resource, y,", ON_OTHERS: others}[on]


def edge_words(names, edge, pairs=()):
    """What an edge says, where these policies are about two resources."""
    policy, start, action, on, who, to = edge
    seen = seen_words(names, on, who, policy in pairs)
    return f"policy {policy}: in state {start}, {names.tell('action', action)} on {seen} leads to state {to}"


def node_words(names, node):
    """What a node says."""
    _, kind, a, b = node
    return {
        END: "end",
        STATIC: f"{names.tell('action', a)} on {names.tell('resource', b)}",
        NAMED: f"{names.tell('action', a)} on name {b}",
        THEN: f"node {a}, then node {b}",
        EITHER: f"node {a} or node {b}",
        LOOP: f"loop: node {a}",
        BACK: f"back to loop {a}",
        FRESH: f"fresh: name {a}, then node {b}",
        SANDBOX: f"sandbox: node {b} under {names.tell('policy', a)}",
    }[kind]


def mark_words(names, action):
    """What a mark of a summary says of a step."""
    return "its opening" if action == OPENING else names.tell("action", action)


def broken_by(names, marks, policy):
    """As `policy 1 can be broken only by action 4 'drive'`, of the (policy, action) marks of an outline."""
    steps = [mark_words(names, action) for marked, action in marks if marked == policy]
    told = steps[0] if len(steps) == 1 else ", ".join(steps[:-1]) + " and " + steps[-1]
    return f"{names.tell('policy', policy)} can be broken only by {told}"
