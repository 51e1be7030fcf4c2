"""Lines of an SVG picture, made here: no other program is needed."""

import html

FONT = "Helvetica,Arial,sans-serif"
INK, RED, DARK_RED, GREY, TEXT = "#2f4b6e", "#c0182b", "#a01020", "#6b7480", "#333333"
PALE_BLUE, PALE_RED = "#eef4fb", "#fbd5d9"
# about so wide is a letter, of the size that it has
LETTER = 0.56


def wide(text, size=12):
    """About how wide a text is."""
    return len(text) * size * LETTER


class Canvas:
    """What is put on the picture, in order."""

    def __init__(self):
        self.lines = []

    def put(self, name, text=None, **marks):
        marks = marked(marks)
        self.lines.append(f"<{name} {marks}/>" if text is None else f"<{name} {marks}>{html.escape(text)}</{name}>")

    def text(self, x, y, text, size=12, **marks):
        self.put("text", text, x=x, y=y, font_size=size, **{"fill": TEXT, **marks})

    def over(self, x, y, text, size=12, **marks):
        """A text that stays clear of what it lies across."""
        self.text(x, y, text, size, stroke="white", stroke_width=4, stroke_linejoin="round", paint_order="stroke", **marks)

    def begin(self, **marks):
        self.lines.append(f"<g {marked(marks)}>")

    def end(self):
        self.lines.append("</g>")

    def picture(self, width, height, ground=True):
        """The whole, as a file or as a part of a page."""
        size = f'width="{shown(width)}" height="{shown(height)}" viewBox="0 0 {shown(width)} {shown(height)}"'
        head = f'<svg xmlns="http://www.w3.org/2000/svg" {size} font-family="{FONT}">'
        white = [f'<rect width="{shown(width)}" height="{shown(height)}" fill="white"/>'] if ground else []
        return "\n".join([head, *white, *self.lines, "</svg>"]) + "\n"


def marked(marks):
    """The attributes of an element: class_ for class, font_size for font-size."""
    return " ".join(f'{key.rstrip("_").replace("_", "-")}="{html.escape(shown(value))}"' for key, value in marks.items())


def shown(value):
    """A number without needless places."""
    return f"{value:.1f}".rstrip("0").rstrip(".") if isinstance(value, float) else str(value)


def file(picture):
    return '<?xml version="1.0" encoding="UTF-8"?>\n' + picture
