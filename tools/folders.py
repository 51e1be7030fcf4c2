"""A folder of sheets as the explanations see it: its sheets as bytes and as lines to quote, its names; and the lines that were printed.

Nothing here judges. Where what is derived from the sheets does not lead to what was printed there are no words, but a `Differs`.
"""

import os
import re

import expressions
import sheets
from names import Names, file_hints
from number_table import numbers

NAMES = "line answer detail"
ALLOWED, VIOLATED, REFUSED = range(3)
WIDEST = 100


class Differs(Exception):
    """What is derived from the sheets does not lead to what was printed."""


def visible(text):
    """A sheet's line as it can be shown: other bytes than printable ASCII by their codes."""
    shown = "".join(c if " " <= c <= "~" else "\\t" if c == "\t" else "\\r" if c == "\r" else f"\\x{ord(c):02x}" for c in text)
    return shown if len(shown) <= WIDEST else shown[:WIDEST] + " ..."


class Folder:
    """The sheets of a folder, as bytes and as lines to quote, and its names. A trace that is no file of it is given as its bytes, with the
    name to call it by."""

    def __init__(self, path, trace=None, trace_name=sheets.TRACE_SHEET.file):
        self.path = path
        self.trace_name = trace_name
        self.names = Names.of_folder(path)
        # the sheets whose refusal is told already
        self.refused = set()
        # the (policy, action) marks of the outline, where its summary is told of too
        self.marks = None
        self.data = {kind: sheets.load(os.path.join(path, kind.file)) for kind in sheets.SHEETS}
        self.typed = expressions.of_folder(path)
        if self.typed:
            self.data[sheets.OUTLINE_SHEET] = self.typed.sheet
        if trace is not None:
            self.data[sheets.TRACE_SHEET] = trace
        self.lines = {kind: re.findall("[^\n]*\n|[^\n]+", data.decode("latin-1")) for kind, data in self.data.items()}

    def quote(self, kind, line, words="", indent=2, width=0, columns=None):
        """A line of a sheet as compilers quote it, and a mark under what is meant."""
        if self.typed and kind is sheets.OUTLINE_SHEET:
            return self.typed.quote(line, WIDEST, words, indent, columns)
        if line > len(self.lines[kind]):
            return []
        text = self.lines[kind][line - 1].rstrip("\n")
        quoted = [" " * indent + f"{line:{width}} | {visible(text)}" + (f"   ({words})" if words else "")]
        if columns:
            start, end = (len(visible(text[:column])) for column in columns)
            if end <= WIDEST:
                quoted.append(" " * (indent + max(width, len(str(line)))) + " | " + " " * start + "^" * max(1, end - start))
        return [line.rstrip() for line in quoted]

    def hints(self, kind, refused):
        """What brought a refusal of a sheet about, where that can be told."""
        if refused is (self.typed and self.typed.refused):
            return [f"  hint: {refused.hint}"] if refused.hint else []
        data, path = self.data[kind], os.path.join(self.path, kind.file)
        if not data and not os.path.exists(path):
            return [f"  hint: there is no file {kind.file} in this folder; a missing sheet reads as an empty one"]
        if not data and (os.path.getsize(path) or not os.path.isfile(path)):
            return [f"  hint: {kind.file} could not be read; it is taken for an empty sheet"]
        return byte_hints(data, refused)


def byte_hints(data, refused):
    """Bytes at the place of a refusal that are no part of a sheet, and where they mostly come from."""
    found = [f"  hint: {refused.hint}"] if refused.hint else []
    if refused.number not in (1, sheets.OTHER_BYTE):
        return found
    line = data.split(b"\n")[refused.line - 1]
    found += [f"  hint: {hint}" for hint in file_hints(data if refused.line == 1 else b"", line)]
    if b"\t" in line:
        found.append("  hint: there is a tab in the line; values are parted by spaces alone")
    return found


# ---- the printed lines


def printed_rows(text):
    """The rows of numbers that a program printed after its names line."""
    lines = text.split("\n")
    if lines[0] != NAMES or lines.pop() != "":
        raise Differs(f"what was printed does not begin with '{NAMES}' or does not end with a line feed")
    rows = []
    for line in lines[1:]:
        values = line.split(" ")
        if len(values) != 3 or not all(value.isascii() and value.isdigit() for value in values):
            raise Differs(f"'{visible(line)}' was printed, which is not three numbers")
        rows.append(tuple(int(value) for value in values))
    return rows


def read_sheets(folder, kind):
    """The policies and the rows of another sheet, or the first refusal with its sheet."""
    try:
        policies = sheets.Policies(folder.data[sheets.POLICY_SHEET])
    except sheets.Refused as refused:
        return None, (sheets.POLICY_SHEET, refused)
    if folder.typed and kind is sheets.OUTLINE_SHEET and folder.typed.refused:
        return None, (kind, folder.typed.refused)
    try:
        return (policies, sheets.read_sheet(kind, folder.data[kind])[1]), None
    except sheets.Refused as refused:
        return None, (kind, refused)


def same(derived, found, what):
    if derived != found:
        show = lambda row: " ".join(str(value) for value in row) if row else "nothing"
        raise Differs(f"{what} leads to '{show(derived)}', but '{show(found)}' was printed")


def meaning(number):
    if number not in numbers():
        raise Differs(f"docs/SHEETS.md has no number {number}")
    return numbers()[number]


def sheet_refused(folder, kind, refused):
    """A refused sheet: the rule, and where."""
    number = meaning(refused.number)
    place = f"{kind.file}:{refused.line}" if refused.line else kind.file
    out = [f"{place}: refused, {refused.number}: {refused.what}"]
    if refused.line:
        out += folder.quote(kind, refused.line, columns=refused.columns)
    out.append(f"  number {refused.number} means: {number.meaning}")
    return out + folder.hints(kind, refused) + [f"  usually mended so: {number.mended}"]
