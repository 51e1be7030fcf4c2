"""The picture of a policy sheet: one automaton for each policy that has an edge.

The states stand in a row. Edges between the same two states share one arrow, with their lines of policies.txt. An arrow goes up, over and
down to its end, one that leads back below the row; each is as high as it must be for its words to be clear of those of the others.
"""

from canvas import DARK_RED, GREY, INK, PALE_BLUE, RED, Canvas, file, wide
from labels import edge_label, policy_label
from sheets import OFFENDING, pair_policies

GAP, RADIUS, LEG, CORNER = 118, 17, 7, 8
SIZE, LINE = 12, 14
# so many letters in a line of an arrow's words, and so many lines
LETTERS, MOST_LINES = 26, 3


def filled(labels):
    """Labels in a few lines, none broken in two; where they are too many the last line tells how many more there are."""
    lines, count = [], 0
    for label in labels:
        if lines and len(lines[-1]) + len(label) + 2 <= LETTERS:
            lines[-1] += f", {label}"
        elif len(lines) < MOST_LINES:
            lines.append(label)
        else:
            return lines[:-1] + [f"{lines[-1]} and {len(labels) - count} more"]
        count += 1
    return [line + "," for line in lines[:-1]] + lines[-1:]


class Arrow:
    """The edges from one state to another: their words, and where these stand."""

    def __init__(self, names, start, to, edges, pair):
        self.start, self.to = start, to
        labels = list(dict.fromkeys(edge_label(names, edge, pair) for _, edge in edges))
        self.words = filled(labels)
        lines = [str(line) for line, _ in edges]
        self.lines = f"line {lines[0]}" if len(lines) == 1 else f"lines {', '.join(lines)}"
        if len(lines) > 8:
            self.lines = f"lines {', '.join(lines[:7])} and {len(lines) - 7} more"
        self.width = max([wide(word, SIZE) for word in self.words] + [wide(self.lines, 9)]) + 8
        self.height = LINE * len(self.words) + 18
        self.level = 0


class Automaton:
    """One policy: its states in a row, its arrows above and below."""

    def __init__(self, names, policy, edges):
        self.policy = policy
        ends = {}
        for line, edge in edges:
            ends.setdefault((edge[1], edge[5]), []).append((line, edge))
        self.states = sorted({0} | {state for both in ends for state in both})
        self.at = {state: 62 + place * GAP for place, state in enumerate(self.states)}
        pair = bool(pair_policies(edge for _, edge in edges))
        arrows = [Arrow(names, *both, found, pair) for both, found in ends.items()]
        arrows.sort(key=lambda arrow: (abs(self.at[arrow.to] - self.at[arrow.start]), arrow.start, arrow.to))
        self.above = [arrow for arrow in arrows if arrow.start <= arrow.to]
        self.below = [arrow for arrow in arrows if arrow.start > arrow.to]
        self.up, self.down = self.stack(self.above), self.stack(self.below)
        spans = [end for arrow in arrows for end in self.span(arrow)]
        # words that reach to the left of the row move it
        shift = max(0, 8 - min(spans, default=8))
        self.at = {state: x + shift for state, x in self.at.items()}
        self.width = max([end + shift for end in spans] + [self.at[self.states[-1]] + 30])

    def span(self, arrow):
        """From where to where an arrow and its words reach."""
        ends = sorted((self.at[arrow.start], self.at[arrow.to]))
        middle = sum(ends) / 2
        return min(ends[0] + LEG, middle - arrow.width / 2), max(ends[1] - LEG, middle + arrow.width / 2)

    def stack(self, arrows):
        """How far from the row each arrow goes over, so that no words meet; how far the last of them reaches."""
        placed, reach = [], 0
        for arrow in arrows:
            left, right = self.span(arrow)
            level = RADIUS + 20
            for low, high, start, end in sorted(placed):
                if start < right and left < end and low < level + arrow.height and level < high:
                    level = high
            arrow.level = level
            placed.append((level, level + arrow.height, left, right))
            reach = max(reach, level + arrow.height)
        return reach

    def draw(self, canvas, top, local):
        """The automaton below the line `top`; how high it is."""
        middle = top + max(self.up, RADIUS + 8)
        for arrow in reversed(self.above + self.below):
            self.put_arrow(canvas, arrow, middle)
        first = self.at[self.states[0]]
        canvas.put("circle", cx=first - 46, cy=middle, r=3, fill="#444444")
        canvas.put("path", d=f"M{first - 46} {middle}H{first - RADIUS - 6}", stroke="#444444", marker_end="url(#plain)")
        if local:
            canvas.over(first - 34, middle + 16, "opening", 10, text_anchor="middle", fill=GREY)
        for state in self.states:
            self.put_state(canvas, state, middle)
        for arrow in self.above + self.below:
            self.put_words(canvas, arrow, middle)
        return max(self.up, RADIUS + 8) + max(self.down, RADIUS + 8)

    def put_state(self, canvas, state, y):
        bad = state in OFFENDING
        canvas.begin(class_="state", data_policy=self.policy, data_state=state)
        fill, line = ("#fde8ea", RED) if bad else (PALE_BLUE, INK)
        canvas.put("circle", cx=self.at[state], cy=y, r=RADIUS, fill=fill, stroke=line, stroke_width=1.4)
        if bad:
            canvas.put("circle", cx=self.at[state], cy=y, r=RADIUS - 4, fill="none", stroke=RED)
        canvas.text(self.at[state], y + 5, str(state), 14, text_anchor="middle", fill=DARK_RED if bad else "#222222")
        canvas.end()

    def put_arrow(self, canvas, arrow, middle):
        side = -1 if arrow.start <= arrow.to else 1
        over = middle + side * arrow.level
        # an arrow leaves its state on the side of its end; one to the state itself leaves on the right
        right = 1 if arrow.start <= arrow.to else -1
        begin, end = self.at[arrow.start] + right * LEG, self.at[arrow.to] - right * LEG
        turn = CORNER if end > begin else -CORNER
        turn = max(-abs(end - begin) / 2, min(abs(end - begin) / 2, turn))
        bad = arrow.to in OFFENDING
        path = (
            f"M{begin} {middle + side * (RADIUS - 2)}V{over - side * CORNER}Q{begin} {over} {begin + turn} {over}"
            f"H{end - turn}Q{end} {over} {end} {over - side * CORNER}V{middle + side * (RADIUS + 6)}"
        )
        canvas.put("path", d=path, fill="none", stroke=RED if bad else "#555555", marker_end="url(#bad)" if bad else "url(#plain)")

    def put_words(self, canvas, arrow, middle):
        side = -1 if arrow.start <= arrow.to else 1
        over = middle + side * arrow.level
        x = (self.at[arrow.start] + self.at[arrow.to]) / 2
        y = over - arrow.height + 16 if side < 0 else over + 17
        for number, words in enumerate(arrow.words):
            colour = DARK_RED if arrow.to in OFFENDING else "#222222"
            canvas.over(x, y + LINE * number - 2, words, SIZE, text_anchor="middle", fill=colour)
        canvas.over(x, y + LINE * len(arrow.words) - 5, arrow.lines, 9, text_anchor="middle", fill=GREY)


def put_heads(canvas):
    """The heads of the arrows."""
    for name, colour in (("plain", "#555555"), ("bad", RED)):
        canvas.lines.append(
            f'<marker id="{name}" viewBox="0 0 8 8" refX="6" refY="4" markerWidth="8" markerHeight="8" orient="auto">'
            f'<path d="M0 0.5L8 4L0 7.5z" fill="{colour}"/></marker>'
        )


def policies(rows, names, local, ground=True):
    """The picture of all policies that have an edge."""
    canvas, top, width = Canvas(), 12, 240
    put_heads(canvas)
    edges = {}
    for line, edge in enumerate(rows, 2):
        edges.setdefault(edge[0], []).append((line, edge))
    for policy in sorted(edges):
        automaton = Automaton(names, policy, edges[policy])
        title = policy_label(names, policy) + (" (local)" if local else "")
        width = max(width, automaton.width + 24, wide(title, 15) + 40)
        canvas.text(14, top + 12, title, 15)
        top += 22
        top += automaton.draw(canvas, top, local) + 24
    if not edges:
        canvas.text(14, top + 20, "no edge: no policy can be broken", 14)
        top += 34
    return canvas.picture(int(width), int(top), ground)


def drawn(rows, names, local):
    return file(policies(rows, names, local))
