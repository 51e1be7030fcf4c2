"""The names of numbers, kinds and answers for C and Rust, made from the tables of docs/NUMBERS.md and docs/SHEETS.md. tests/numbers holds
api/wiforekun_numbers.h and api/rust/src/numbers.rs to what is made here; `tests/numbers --write` writes them."""

import os

from number_table import numbers, table_rows

TOP = os.path.dirname(os.path.dirname(os.path.realpath(__file__)))
HEADER = os.path.join("api", "wiforekun_numbers.h")
CRATE = os.path.join("api", "rust", "src", "numbers.rs")


class Home:
    """A row of docs/NUMBERS.md: a number, its name, and where it is at home."""

    def __init__(self, number, name, defined, decided, proved, tried, worded):
        self.number, self.name = int(number), name
        self.defined, self.decided, self.proved, self.tried, self.worded = defined, decided, proved, tried, worded


def homes():
    return [Home(*cells) for cells in table_rows("NUMBERS.md", "number")]


def kinds():
    """(of what, number, name) of each kind and answer."""
    return [(cells[0], int(cells[1]), cells[2]) for cells in table_rows("NUMBERS.md", "of")]


def c_text():
    """The header of the names."""
    out = [
        "/* The kinds of steps and nodes, what an edge is on, the answers, and the numbers of the refusals, by name. Made from docs/NUMBERS.md and",
        " * docs/SHEETS.md by `tests/numbers --write`. */",
        "#ifndef WIFOREKUN_NUMBERS_H",
        "#define WIFOREKUN_NUMBERS_H",
    ]
    before = None
    for of, number, name in kinds():
        if of != before:
            out += ["", f"/* {of} */"]
        before = of
        out.append(f"#define WIFOREKUN_{name} {number}u")
    out += ["", "/* the number of a refusal: its meaning */"]
    for home in homes():
        out.append(f"#define WIFOREKUN_REFUSED_{home.name} {home.number}u /* {numbers()[home.number].meaning} */")
    return "\n".join(out + ["", "#endif"]) + "\n"


def rust_text():
    """The module of the names."""
    out = ["// Made from docs/NUMBERS.md and docs/SHEETS.md by `tests/numbers --write`.", "use super::Refusal;", "", "impl Refusal {"]
    for home in homes():
        meaning = numbers()[home.number].meaning
        out += [f"    /// {home.number}: {meaning}.", f"    pub const {home.name}: Refusal = Refusal({home.number});"]
    out += [
        "", "    /// What the number means, in the words of docs/SHEETS.md; none for a number that no function answers with.",
        "    #[must_use]", "    pub const fn meaning(self) -> Option<&'static str> {", "        match self.0 {",
    ]
    for home in homes():
        meaning = numbers()[home.number].meaning.replace("\\", "\\\\").replace('"', '\\"')
        out.append(f'            {home.number} => Some("{meaning}"),')
    return "\n".join(out + ["            _ => None,", "        }", "    }", "}"]) + "\n"


FILES = {HEADER: c_text, CRATE: rust_text}
