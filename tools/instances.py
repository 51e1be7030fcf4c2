"""What the instances of the policies go through along a trace: the states that each may be in, the edges that moved it, and under a local
sheet the openings that put it back to state 0. An instance is the tuple of its resources: x, or x and y.

It follows the steps that the monitor allowed. It gives no verdict: tools/explain holds it to what the monitor printed, and tools/draw
draws it.
"""

from sheets import CLOSE, CREATE, EVENT, OFFENDING, ON_OTHERS, ON_STATIC, ON_X, ON_Y, OPEN, POLICIES, RETIRE, STATICS, pair_policies

# a resource that is in no step so far: all of them move alike
UNSEEN = None
# what an instance is in at the start, and again where a local policy is opened that is not open
START = frozenset([0])


def matches(edge, action, resource, instance):
    """Is this edge about the event, in this instance?"""
    _, _, of, on, who, _ = edge
    if of != action:
        return False
    own = [other == resource for other in instance]
    return {ON_STATIC: who == resource, ON_X: own[0], ON_Y: own[-1] and len(own) > 1, ON_OTHERS: not any(own)}[on]


def ends(edges, event, instance):
    """From each state, the (line, end) of each edge that matches; a state that is not there stays."""
    rows = {}
    for line, edge in edges:
        if matches(edge, *event, instance):
            rows.setdefault(edge[1], []).append((line, edge[5]))
    return rows


def moved(states, rows):
    """The states after an event."""
    after = set()
    for state in states:
        after.update(to for _, to in rows[state]) if state in rows else after.add(state)
    return frozenset(after)


class Move:
    """One event in the past of an instance: the states before and after, and each (state, line of the edge or none, end)."""

    def __init__(self, line, before, rows):
        self.line = line
        self.before = before
        self.after = moved(before, rows)
        self.steps = []
        for state in sorted(before):
            self.steps += [(state, edge, to) for edge, to in rows.get(state, [(None, state)])]


class Reset:
    """An opening that puts an instance back to state 0: the states before and after."""

    def __init__(self, line, before):
        self.line = line
        self.before = before
        self.after = START
        self.steps = [(state, None, 0) for state in sorted(before)]


class Past:
    """The steps that were allowed so far, and what the instances may be in. Refused steps are not told to it."""

    def __init__(self, policies):
        self.edges = [[(line, edge) for line, edge in enumerate(policies.edges, 2) if edge[0] == policy] for policy in range(POLICIES)]
        self.local = policies.local
        self.events = []
        # for each policy the lines of the openings that put its instances back
        self.resets = [[] for _ in range(POLICIES)]
        # the lines of the creates and of the retirings, by resource. A retired one keeps its instance, which moves on
        self.created = {}
        self.retired = {}
        self.seen = set()
        # the (policy, line) of each opening that is not closed, the oldest first
        self.unclosed = []
        self.counts = [[0, 0] for _ in range(POLICIES)]
        self.pairs = pair_policies(policies.edges)
        # for each policy the resources of events that it has edges for, and what the instances of these and of UNSEEN may be in: in all
        # others it is what it is in that of UNSEEN
        self.apart = [[UNSEEN] for _ in range(POLICIES)]
        self.states = [{(UNSEEN, UNSEEN) if policy in self.pairs else (UNSEEN,): START} for policy in range(POLICIES)]
        # those of them that may be in an offending state
        self.bad = [set() for _ in range(POLICIES)]

    def take(self, line, step):
        """One more step."""
        kind, a, b = step
        if kind == EVENT:
            self.event(line, a, b)
        elif kind == OPEN:
            if self.local and not self.openings(a):
                self.resets[a].append(line)
                self.states[a] = dict.fromkeys(self.states[a], START)
                self.bad[a] = set()
            self.unclosed.append((a, line))
            self.counts[a][0] += 1
        elif kind == CLOSE:
            self.unclosed.remove((a, self.openings(a)[-1]))
            self.counts[a][1] += 1
        elif kind == RETIRE:
            self.retired[a] = line

    def live(self):
        """The resources that are created and not retired."""
        return [resource for resource in self.created if resource not in self.retired]

    def openings(self, policy):
        """The lines of the openings of a policy that are not closed, the oldest first; none where it is not open."""
        return [line for opened, line in self.unclosed if opened == policy]

    def event(self, line, action, resource):
        self.events.append((line, (action, resource)))
        if action == CREATE and resource >= STATICS:
            self.created[resource] = line
        self.seen.add(resource)
        for policy in range(POLICIES):
            if any(edge[2] == action for _, edge in self.edges[policy]):
                self.tell_apart(policy, resource)
                self.move(policy, (action, resource))

    def instances_with(self, policy, resource):
        """The instances that this resource is in, of those that are told apart."""
        if policy not in self.pairs:
            return [(resource,)]
        known = self.apart[policy]
        return [(resource, y) for y in known] + [(x, resource) for x in known if x != resource]

    def tell_apart(self, policy, resource):
        """A resource's instances have moved as those of UNSEEN until it is told apart."""
        if resource in self.apart[policy]:
            return
        self.apart[policy].append(resource)
        for instance in self.instances_with(policy, resource):
            self.put(policy, instance, self.states[policy][tuple(UNSEEN if x == resource else x for x in instance)])

    def put(self, policy, instance, states):
        """What an instance may be in from here on."""
        self.states[policy][instance] = states
        self.bad[policy].add(instance) if states & set(OFFENDING) else self.bad[policy].discard(instance)

    def move(self, policy, event):
        """The instances move on an event; where no edge is about those that its resource is not in, these are passed over."""
        rows, known = {}, {}
        own = self.instances_with(policy, event[1])
        others = ends(self.edges[policy], event, (UNSEEN,))
        for instance in list(self.states[policy]) if others else own:
            seen = tuple(x == event[1] for x in instance)
            if seen not in rows:
                rows[seen] = ends(self.edges[policy], event, instance)
            now = self.states[policy][instance]
            if (seen, now) not in known:
                known[seen, now] = moved(now, rows[seen])
            self.put(policy, instance, known[seen, now])

    def may_be_in(self, policy, instance):
        """The states that an instance may be in."""
        return self.states[policy][tuple(x if x in self.apart[policy] else UNSEEN for x in instance)]

    def breakers(self, policy):
        """The instances that may be in an offending state; UNSEEN in them for all resources that are in no step so far. Of a policy about
        two resources only those that it tells apart: the others are as that of UNSEEN."""
        if policy in self.pairs:
            return list(self.bad[policy])
        return [(x,) for x in [UNSEEN, *self.seen] if self.may_be_in(policy, (x,)) & set(OFFENDING)]

    def breaker(self, policy, step):
        """One of these to tell of: of those with the step's resource, else of all, the lowest that occurred."""
        event = step[2] if step[0] == EVENT else UNSEEN
        told = lambda instance: (event is UNSEEN or event not in instance, instance.count(UNSEEN), [x or 0 for x in instance])
        return min(self.breakers(policy), key=told)

    def unseen_number(self):
        """A resource that is in no step so far."""
        return min(set(range(len(self.seen) + 1)) - self.seen)

    def broken(self):
        """The policies that are open and broken."""
        return [policy for policy in range(POLICIES) if self.openings(policy) and self.bad[policy]]

    def moves(self, policy, instance):
        """What an instance went through from the start on: a `Move` for each event, a `Reset` for each opening that put it back."""
        states, found = START, []
        resets = [(line, None) for line in self.resets[policy]]
        for line, event in sorted(self.events + resets, key=lambda step: step[0]):
            move = Move(line, states, ends(self.edges[policy], event, instance)) if event else Reset(line, states)
            states = move.after
            found.append(move)
        return found

    def way(self, policy, instance):
        """The fewest moves by edges that bring an instance from the start, or from where it was last put back, into an offending state:
        (move, from, edge, to)."""
        best = {0: []}
        for move in self.moves(policy, instance):
            after = {}
            if isinstance(move, Reset):
                best = {0: []}
                continue
            for state, edge, to in move.steps:
                path = best[state] + ([(move, state, edge, to)] if edge is not None else [])
                if to not in after or len(path) < len(after[to]):
                    after[to] = path
            best = after
        offending = [state for state in OFFENDING if state in best]
        return min((best[state] for state in offending), key=len) if offending else None
