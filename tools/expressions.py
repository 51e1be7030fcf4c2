"""Outlines typed as expressions, for tools/draw and tools/explain.

An expression is read from the left by the grammar of docs/SHEETS.md, "An outline typed as an expression". The first rule that it breaks
is a `Refused`, with what could stand there in words and the columns that it is about. An accepted one has the rows of its outline sheet,
and for each node the columns of what it stands for.
"""

import os

import sheets
from sheets import BACK, EITHER, END, FRESH, LOOP, NAMED, NODE_FIELDS, NODES, SANDBOX, STATIC, THEN, Refused

FILE = "outline.expr"
MOST_NESTED = 32
WRONG, DEEP, MANY = 15, 16, 17

# what may stand at a place; an item begins with a digit too
ITEM, DIGIT, FEED, NOTHING = "an item", "a digit", "the end of the line", "nothing"


def one_of(words):
    return words[0] if len(words) == 1 else ", ".join(words[:-1]) + " or " + words[-1]


def is_digit(byte):
    return byte != "" and byte in "0123456789"


class Tree:
    """A node with its fields as far as they are written, its children, its label, and its columns: all of it, and what is marked."""

    def __init__(self, kind, marked, values=(), children=(), label=None):
        self.kind = kind
        self.marked = marked
        self.values = values
        self.children = children
        self.label = label


class Reader:
    """The bytes of an expression and the place that is read."""

    def __init__(self, text):
        self.text = text
        self.at = 0
        self.trees = []

    def here(self):
        """The byte at the place, and none at the end."""
        return self.text[self.at : self.at + 1]

    def wrong(self, *could):
        """Refusal 15, with what could stand here."""
        at = self.at
        if could == (NOTHING,):
            what = "the line has ended, and nothing may follow"
        elif at == len(self.text):
            what = f"the text ends here, where {one_of(could)} must stand"
        else:
            what = f"{byte_words(self.here())} can't stand here, but {one_of(could)}"
        return Refused(WRONG, 1, what, (at, at + 1), hint(self.text, at))

    def take(self, *bytes_and_words):
        """One of these bytes, which is handed back."""
        if self.here() and self.here() in bytes_and_words:
            self.at += 1
            return self.text[self.at - 1]
        raise self.wrong(*(f"`{byte}`" for byte in bytes_and_words))

    def digits(self, most, after):
        """A number of at most so many digits, with its columns; `after` is what may follow it."""
        start = self.at
        while self.at - start < most and is_digit(self.here()):
            self.at += 1
        if start == self.at:
            raise self.wrong(DIGIT)
        if self.here() not in after or not self.here():
            more = (DIGIT,) if self.at - start < most else ()
            raise self.wrong(*more, *(f"`{byte}`" for byte in after))
        return int(self.text[start : self.at]), (start, self.at)

    def new(self, *arguments, **words):
        tree = Tree(*arguments, **words)
        self.trees.append(tree)
        return tree

    # ---- the grammar

    def line(self):
        tree = self.choice(0, FEED)
        if self.here() != "\n":
            raise self.wrong("`+`", "`.`", FEED)
        self.at += 1
        if self.here():
            raise self.wrong(NOTHING)
        return tree

    def choice(self, depth, end):
        return self.joined("+", EITHER, self.sequence, depth, end)

    def sequence(self, depth, end):
        return self.joined(".", THEN, self.item, depth, end)

    def joined(self, sign, kind, part, depth, end):
        tree = part(depth, end)
        while self.here() == sign:
            marked = (self.at, self.at + 1)
            self.at += 1
            node = self.new(kind, marked)
            node.children = (tree, part(depth, end))
            tree = node
        return tree

    def item(self, depth, end):
        letter = self.here()
        if letter == "(":
            return self.bracket(depth, ")")
        if letter and letter in "mfp":
            return self.opened(letter, depth)
        if letter == "h":
            start = self.at
            self.at += 1
            if not is_digit(self.here()):
                raise self.wrong(DIGIT)
            self.at += 1
            return self.new(BACK, (start, self.at), label=self.text[self.at - 1])
        if is_digit(letter):
            return self.event(end)
        raise self.wrong(ITEM)

    def bracket(self, depth, closing):
        """What stands in a bracket that opens here."""
        if depth == MOST_NESTED:
            what = f"this bracket is the {depth + 1}rd around; they nest at most {MOST_NESTED} deep"
            raise Refused(DEEP, 1, what, (self.at, self.at + 1))
        self.at += 1
        tree = self.choice(depth + 1, f"`{closing}`")
        if self.here() != closing:
            raise self.wrong("`+`", "`.`", f"`{closing}`")
        self.at += 1
        return tree

    def opened(self, letter, depth):
        start = self.at
        self.at += 1
        value, where = self.digits(1 if letter == "m" else 2, "{")
        kind = {"m": LOOP, "f": FRESH, "p": SANDBOX}[letter]
        values = () if letter == "m" else ((value, where),)
        tree = self.new(kind, (start, self.at), values, label=str(value) if letter == "m" else None)
        tree.children = (self.bracket(depth, "}"),)
        return tree

    def event(self, end):
        start = self.at
        while self.at - start < 2 and is_digit(self.here()):
            self.at += 1
        if self.here() != "(":
            more = (DIGIT,) if self.at - start < 2 else ()
            if self.text[start : self.at] == "0":
                if self.here() in ("+", ".") or f"`{self.here()}`" == end or (end == FEED and self.here() == "\n"):
                    return self.new(END, (start, self.at))
                raise self.wrong(*more, "`(`", "`+`", "`.`", end)
            raise self.wrong(*more, "`(`")
        action = (int(self.text[start : self.at]), (start, self.at))
        self.at += 1
        kind = {"s": STATIC, "n": NAMED}[self.take("s", "n")]
        on = self.digits(2, ")")
        self.at += 1
        return self.new(kind, (start, self.at), (action, on))


# ---- words for what is wrong


def byte_words(byte):
    if byte == "\n":
        return "the end of the line"
    if " " < byte <= "~":
        return f"`{byte}`"
    return {" ": "a space", "\t": "a tab", "\r": "a carriage return"}.get(byte, f"the byte {ord(byte)}")


def hint(text, at):
    """What an author may have meant by the byte at a place."""
    byte = text[at : at + 1]
    if text.startswith("\xef\xbb\xbf"):
        return "it begins with a byte-order mark (bytes EF BB BF); save it as plain text without one"
    if byte == "\r":
        return "the line ends with carriage return and line feed (CRLF); save it with a line feed alone (LF)"
    if byte in (" ", "\t") and byte:
        return "there are no spaces in an expression"
    if text.startswith(tuple(name + "\n" for kind in sheets.SHEETS for name in kind.names)):
        return "this is a sheet; an outline sheet is called outline.txt"
    if "\n" in text[:at]:
        return "an expression is one line"
    if byte.isupper():
        return "letters are small"
    return None


# ---- the nodes


def numbered(tree, loops, rows, spans):
    """The rows of a tree: "A node is numbered first, then all of its left child, then all of its right"."""
    number = len(rows)
    rows.append(None)
    spans.append(tree.marked)
    written = [value for value, _ in tree.values]
    inside = {**loops, tree.label: number} if tree.kind == LOOP else loops
    children = []
    for child in tree.children:
        children.append(len(rows))
        numbered(child, inside, rows, spans)
    if tree.kind == BACK:
        written = [loops.get(tree.label, number)]
    a, b = (written + children + [0, 0])[:2]
    rows[number] = [number, tree.kind, a, b]


def check_ranges(trees):
    """Refusal 3, of the nodes in the order of their numbers."""
    for tree in trees:
        for (value, where), (field, least, most) in zip(tree.values, NODE_FIELDS[tree.kind]):
            if not least <= value <= most:
                what = field.split("the ")[1].strip(" ,")
                raise Refused(3, 1, f"the {what} is {value}, not {least} to {most}", where)


def check_rules(rows, spans):
    """Refusals 7 and 8, as of an outline sheet."""
    try:
        sheets.check_outline(rows)
    except Refused as wrong:
        node = wrong.line - 2
        raise Refused(wrong.number, 1, rule_words(rows, spans, node), spans[node]) from None


def rule_words(rows, spans, node):
    _, kind, a, b = rows[node]
    if kind == BACK:
        return "no loop of this label is around this back"
    if kind == NAMED:
        return f"name {b} is used outside the brackets of `f{b}`"
    lower = next(row[0] for row in rows if row[1] == FRESH and row[2] == a)
    return f"name {a} is given here, and at column {spans[lower][0] + 1} too"


def preorder(tree):
    """The nodes of a tree in the order of their numbers."""
    waiting = [tree]
    while waiting:
        tree = waiting.pop()
        yield tree
        waiting += reversed(tree.children)


class Expression:
    """An accepted expression: the rows of its outline sheet, and the columns of each node."""

    def __init__(self, data):
        if len(data) > sheets.LONGEST:
            raise Refused(5, 0, f"the expression is longer than {sheets.LONGEST:,} bytes")
        reader = Reader(data.decode("latin-1"))
        tree = reader.line()
        if len(reader.trees) > NODES:
            first = sorted(made.marked for made in reader.trees)[NODES]
            what = f"there are {len(reader.trees):,} nodes, an item or a sign each; this is the {NODES + 1}th from the left"
            raise Refused(MANY, 1, what, first)
        check_ranges(preorder(tree))
        self.rows, self.spans = [], []
        numbered(tree, {}, self.rows, self.spans)
        check_rules(self.rows, self.spans)

    def sheet(self):
        """The outline sheet, as bytes."""
        lines = ["node kind a b", *(" ".join(str(value) for value in row) for row in self.rows)]
        return ("\n".join(lines) + "\n").encode()


class Typed:
    """The outline of a folder that is typed as an expression: its text, and its refusal or the columns of its nodes."""

    def __init__(self, data):
        self.text = data.decode("latin-1")
        self.refused = None
        self.columns = None
        self.sheet = b""
        try:
            read = Expression(data)
            self.columns, self.sheet = read.spans, read.sheet()
        except Refused as wrong:
            self.refused = wrong

    def quote(self, line, widest, words, indent, columns):
        """The line with a mark under what is meant: these columns of it, or the node that has this line of the outline sheet."""
        if line > 1:
            columns = self.columns[line - 2]
        return quoted(self.text, columns, widest, words, indent)


def of_folder(path):
    """The outline of a folder, where it is typed as an expression; else none. The outline sheet goes by its name and columns then."""
    if not os.path.exists(os.path.join(path, FILE)) or os.path.exists(os.path.join(path, "outline.txt")):
        return None
    typed = Typed(sheets.load(os.path.join(path, FILE)))
    sheets.OUTLINE_SHEET.file = FILE
    sheets.OUTLINE_SHEET.columns = typed.columns
    return typed


# ---- an expression, quoted


def quoted(text, columns, widest, words="", indent=2):
    """The line of an expression with a mark under these columns. Of a long one what is around them."""
    line = text.split("\n")[0]
    start, end = columns
    left = 0 if len(line) <= widest or start < widest // 2 else start - widest // 2
    right = min(len(line), left + widest)
    shown = "".join(c if " " <= c <= "~" else "?" for c in line[left:right])
    before, after = "... " if left else "", " ..." if right < len(line) else ""
    mark = " " * (len(before) + start - left) + "^" * max(1, min(end, right) - start)
    lines = [" " * indent + "1 | " + before + shown + after, " " * (indent + 1) + " | " + mark + (f"   ({words})" if words else "")]
    return [line.rstrip() for line in lines]


def is_expression(path):
    return path.endswith(".expr")


def rows_of(data, file):
    """The rows of an expression for its picture; where it is refused a `ValueError` that quotes it."""
    try:
        return Expression(data).rows
    except Refused as wrong:
        lines = quoted(data.decode("latin-1"), wrong.columns, 100) if wrong.columns else []
        hints = [f"  hint: {wrong.hint}"] if wrong.hint else []
        raise ValueError("\n".join([f"{file}, {wrong}", *lines, *hints])) from None


def wrapped(data):
    """An accepted expression in lines of at most 100 bytes."""
    line = data.decode().rstrip("\n")
    return [line[at : at + 100] for at in range(0, len(line), 100)]
