"""Colour for an explanation at a terminal. The text stays the same."""

import re

RED, GREEN, YELLOW, BOLD, DIM = "31", "32", "33", "1", "2"

# the first pattern that a line begins with decides
LINES = [
    (r"[0-9]+ 1 [0-9]+$|\S+: (violated|the end of the run)|outline\.txt: refused: ", RED),
    (r"[0-9]+ [2-5] [0-9]+$|\S+: refused|\S+, lines? [0-9]+( to [0-9]+)?: not judged", YELLOW),
    (r"worth a look|  hint: |\S+: not there|\S+: a link", YELLOW),
    (r".*: (accepted\.|no steps\.|[0-9,]+ steps?, all allowed\.|[0-9,]+ edges?, well written\.)$", GREEN),
    (r"(trace|outline|policies)\.txt, by the ", BOLD),
    (r" +[0-9]* \| ", DIM),
]


def painted(line):
    for pattern, colour in LINES:
        if re.match(pattern, line):
            return f"\033[{colour}m{line}\033[0m"
    return line


def paint(text):
    return "\n".join(painted(line) for line in text.split("\n"))
