"""What the numbers of the refusals mean. The words stand in one place, the tables of docs/SHEETS.md, and are read from there."""

import functools
import os


class Number:
    """A row of the table of numbers: who brings it about, what it means, how it is usually mended."""

    def __init__(self, number, who, meaning, mended):
        self.number = number
        self.who = who
        self.meaning = meaning
        self.mended = mended


class Former:
    """A number that no longer occurs: what it meant, and the number in its place."""

    def __init__(self, number, meaning, now):
        self.number = number
        self.meaning = meaning
        self.now = int(now)


def table_rows(document, head):
    """The cells of each row of the tables of a document in docs/ whose first column is called so."""
    top = os.path.dirname(os.path.dirname(os.path.realpath(__file__)))
    rows = []
    with open(os.path.join(top, "docs", document), encoding="utf-8") as file:
        for line in file:
            if line.startswith(f"| {head} |"):
                for row in iter(file.readline, ""):
                    if not row.startswith("|"):
                        break
                    if not row.startswith("|-"):
                        rows.append([cell.strip().replace("`", "") for cell in row.strip()[1:-1].split("|")])
    return rows


def table(head):
    """The rows of the table of docs/SHEETS.md whose first column is called so, each by the number that it begins with."""
    return {int(cells[0]): cells[1:] for cells in table_rows("SHEETS.md", head)}


@functools.lru_cache(maxsize=None)
def numbers():
    """The table of numbers, by number."""
    return {number: Number(number, *cells) for number, cells in table("number").items()}


@functools.lru_cache(maxsize=None)
def former_numbers():
    """The table of numbers that no longer occur, by number."""
    return {number: Former(number, *cells) for number, cells in table("former number").items()}
