"""An SVG page: shapes and texts at positions in pixels, with x to the right and y down."""

from html import escape
from math import cos, pi, sin

INK = "#1a1a1a"
PALE = "#8a8a8a"
FAINT = "#f1f1f1"
PAPER = "#ffffff"
WORDS = "DejaVu Sans, Helvetica, Arial, sans-serif"
MARKS = "DejaVu Sans Mono, Menlo, Consolas, monospace"
TINTS = ("#a9cfe8", "#fcd08a", "#b9e0a0", "#d9c3e6", "#f6b3a9", "#e9e39a", "#d2bda0", "#a8dcd2")


class Unreadable(Exception):
    """What was read isn't what a picture can be made of; told in one line."""


def tint_of(number):
    """The fill of the silo with this number, from 1."""
    return TINTS[(number - 1) % len(TINTS)]


def width_of(text, size=12, family=MARKS):
    """How wide a text may be, for letters of equal width; else about how wide it is."""
    return len(text) * size * (0.61 if family == MARKS else 0.515)


def wrapped(text, width, size=12, family=WORDS):
    """The text cut into lines, between its words, none wider than the width where a word isn't."""
    lines = [""]
    for word in text.split():
        longer = f"{lines[-1]} {word}".strip()
        if lines[-1] and width_of(longer, size, family) > width:
            lines.append(word)
        else:
            lines[-1] = longer
    return lines


def around(center, radius, turn):
    """The point at this part of a turn, clockwise from the top."""
    x, y = center
    return x + radius * sin(2 * pi * turn), y - radius * cos(2 * pi * turn)


def number(value):
    """A coordinate, short."""
    return f"{value:.1f}".rstrip("0").rstrip(".")


class Page:
    """What is drawn so far, the last on top."""

    def __init__(self):
        self.shapes = []
        self.definitions = {}

    def shape(self, element, content=None, **attributes):
        """Draws an element of SVG. In a name an underscore stands for a hyphen, two for a colon, one at the end for nothing."""
        self.shapes.append(written(element, content, attributes))

    def text(self, x, y, text, size=12, family=MARKS, anchor="start", weight="normal", fill=INK, style="normal"):
        """Writes one line, its foot at y."""
        self.shape("text", escape(text), x=x, y=y, font_size=size, font_family=family, text_anchor=anchor, font_weight=weight,
                   font_style=style, fill=fill, xml__space="preserve")

    def label(self, x, y, text, size=12, anchor="middle", weight="normal"):
        """Writes one line on a patch of paper, so that it can be read over lines."""
        width = width_of(text, size) + 4
        left = x - {"start": 2, "middle": width / 2, "end": width - 2}[anchor]
        self.shape("rect", x=left, y=y - size, width=width, height=size + 3, fill=PAPER, opacity=0.9)
        self.text(x, y, text, size, anchor=anchor, weight=weight)

    def line(self, start, end, width=1, stroke=INK, dashes=None, **more):
        """Draws a line between two points."""
        (x1, y1), (x2, y2) = start, end
        self.shape("line", x1=x1, y1=y1, x2=x2, y2=y2, stroke=stroke, stroke_width=width, **dashed(dashes), **more)

    def box(self, left, top, width, height, fill=PAPER, stroke=INK, dashes=None):
        """Draws a box with round corners."""
        self.shape("rect", x=left, y=top, width=width, height=height, rx=4, fill=fill, stroke=stroke, **dashed(dashes))

    def head(self, x, y, rightward):
        """Draws the head of an arrow, its tip at the point."""
        back = x - 9 if rightward else x + 9
        corners = ((x, y), (back, y - 4.5), (back, y + 4.5))
        self.shape("polygon", points=" ".join(f"{number(left)},{number(top)}" for left, top in corners), fill=INK)

    def cross(self, x, y, size=6):
        """Draws a cross over the point."""
        self.line((x - size, y - size), (x + size, y + size), 2.5)
        self.line((x - size, y + size), (x + size, y - size), 2.5)

    def define(self, name, definition):
        """Keeps a definition, once."""
        self.definitions[name] = definition

    def document(self, width, height, title):
        """The whole page as the text of an SVG file."""
        opening = (f'<svg xmlns="http://www.w3.org/2000/svg" width="{number(width)}" height="{number(height)}" '
                   f'viewBox="0 0 {number(width)} {number(height)}" role="img">')
        ground = written("rect", None, {"width": width, "height": height, "fill": PAPER})
        parts = [opening, f"<title>{escape(title)}</title>", "<defs>", *self.definitions.values(), "</defs>", ground, *self.shapes]
        return "\n".join([*parts, "</svg>", ""])


def dashed(dashes):
    """The attribute that makes a line dashed, if it is to be."""
    return {"stroke_dasharray": dashes} if dashes else {}


def written(element, content, attributes):
    """An element as text."""
    said = "".join(f' {attribute_name(name)}="{value_text(value)}"' for name, value in attributes.items())
    return f"<{element}{said}/>" if content is None else f"<{element}{said}>{content}</{element}>"


def attribute_name(name):
    """The name of an attribute in SVG."""
    return name.rstrip("_").replace("__", ":").replace("_", "-")


def value_text(value):
    """The value of an attribute as text."""
    return number(value) if isinstance(value, (int, float)) else escape(str(value))
