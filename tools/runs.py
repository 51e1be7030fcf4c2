"""Which nodes of an outline a run goes through that makes given steps, for tools/draw and tools/explain.

A run has the steps so far and a list of parts still to run (docs/SHEETS.md). It gives no verdict: it finds a run that makes exactly these
steps, or none. Outlines know nothing of retirings: those that were added to the steps belong to no node, and are left out.
"""

from sheets import BACK, CLOSE, CREATE, EITHER, END, EVENT, FRESH, LOOP, NAMED, OPEN, RETIRE, SANDBOX, STATIC, STATICS, THEN

UNNAMED = (None, None, None, None)


class Move:
    """A move of a run: the node, the place of the step that it adds (none where it adds none), and whether it is the node's closing."""

    def __init__(self, node, step=None, closing=False):
        self.node = node
        self.step = step
        self.closing = closing

    def __repr__(self):
        return f"Move({self.node}, {self.step}, {self.closing})"


class Finder:
    """Items are (node, what each name means, how many steps were made). An item may be done after so many steps, or stop: be under way
    when all steps are made. Each is kept with the moves and the facts that it came from, which were known before it."""

    def __init__(self, nodes, steps):
        self.nodes = nodes
        self.steps = [tuple(step) for step in steps]
        self.done = {}
        self.stops = {}
        self.asked_by = {}
        self.waiting = []

    def ask(self, item, asker):
        """The facts of an item so far; the asker is looked at again where there are more."""
        if item not in self.done:
            self.done[item] = {}
            self.asked_by[item] = set()
            self.waiting.append(item)
        self.asked_by[item].add(asker)
        return self.done[item]

    def add(self, item, end, because):
        """A new fact: the item is done after `end` steps, or, where that is none, it stops."""
        facts = self.stops if end is None else self.done[item]
        key = item if end is None else end
        if key not in facts:
            facts[key] = because
            self.waiting.extend(self.asked_by[item])

    def made(self, at, step):
        return at < len(self.steps) and self.steps[at] == step

    def find(self):
        """The moves of a run that makes all steps, or none."""
        first = (0, UNNAMED, 0)
        self.ask(first, first)
        while self.waiting:
            item = self.waiting.pop()
            if item[2] == len(self.steps):
                self.add(item, None, [])
            self.look(item)
        return self.moves(first) if first in self.stops else None

    def look(self, item):
        """What follows for an item from what is known."""
        number, meaning, at = item
        _, kind, a, b = self.nodes[number]
        if kind == END:
            self.add(item, at, [Move(number)])
        elif kind in (STATIC, NAMED):
            if self.made(at, (EVENT, a, b if kind == STATIC else meaning[b])):
                self.leave(item, at + 1, [Move(number, at)])
        elif kind == THEN:
            self.follow(item, [Move(number)], (a, meaning, at), lambda end: self.follow_second(item, (a, meaning, at), end, b))
        elif kind == EITHER:
            self.follow(item, [Move(number)], (a, meaning, at))
            self.follow(item, [Move(number)], (b, meaning, at))
        elif kind in (LOOP, BACK):
            self.follow(item, [Move(number)], (a, meaning, at))
        elif kind == FRESH:
            resource = self.created(at)
            if resource is not None:
                given = tuple(resource if name == a else means for name, means in enumerate(meaning))
                self.follow(item, [Move(number, at)], (b, given, at + 1))
        elif kind == SANDBOX and self.made(at, (OPEN, a, 0)):
            inner = (b, meaning, at + 1)
            self.follow(item, [Move(number, at)], inner, lambda end: self.close(item, inner, end, a))

    def leave(self, item, end, because):
        """The item is done; where no step is left it has stopped too."""
        self.add(item, end, because)
        if end == len(self.steps):
            self.add(item, None, because)

    def follow(self, item, moves, part, then=None):
        """The item goes on as `part`: where that stops the item stops; where that is done the item is done, or goes on by `then`."""
        for end in list(self.ask(part, item)):
            if then:
                then(end)
            else:
                self.add(item, end, moves + [(part, end)])
        if part in self.stops:
            self.add(item, None, moves + [(part, None)])

    def follow_second(self, item, first, middle, b):
        self.follow(item, [Move(item[0]), (first, middle)], (b, item[1], middle))

    def close(self, item, inner, end, policy):
        if self.made(end, (CLOSE, policy, 0)):
            self.leave(item, end + 1, [Move(item[0], item[2]), (inner, end), Move(item[0], end, closing=True)])

    def created(self, at):
        """The dynamic resource that the step at this place creates, if it is in no step before."""
        if at >= len(self.steps):
            return None
        kind, action, resource = self.steps[at]
        used = any(step[0] == EVENT and step[2] == resource for step in self.steps[:at])
        return resource if kind == EVENT and action == CREATE and resource >= STATICS and not used else None

    def moves(self, first):
        """The moves behind the fact that the first item stops."""
        found, left = [], [(first, None)]
        while left:
            fact = left.pop()
            if isinstance(fact, Move):
                found.append(fact)
                continue
            item, end = fact
            left.extend(reversed(self.stops[item] if end is None else self.done[item][end]))
        return found


def path(nodes, steps):
    """The moves of a run of the outline that makes exactly these steps, retirings aside; none where they are no trace of it."""
    places = [place for place, step in enumerate(steps) if step[0] != RETIRE]
    moves = Finder(nodes, [steps[place] for place in places]).find()
    if moves is None:
        return None
    return [Move(move.node, None if move.step is None else places[move.step], move.closing) for move in moves]
