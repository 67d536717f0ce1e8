"""The rows of a script as a sequence diagram: time goes down, each silo has a line, and an arrow stands where its letter came."""

from functools import singledispatchmethod

from drawing.chronicle import Answer, Change, Delivery, Loss, Picture, Remark, State, Step, Waiting
from drawing.layout import ARROW, CHANGE, HEADER, LINE, MARGIN, Layout, columns_of, numbers_by_joining, part_of
from drawing.page import FAINT, INK, PALE, PAPER, WORDS, Page, dashed, number, tint_of, width_of, wrapped
from drawing.ring import NOTES, draw_ring, draw_summary

RADIUS = 88
RING_WIDTH = 332
TITLE = 16.5
DASHES = {"again": "2 4", "late": "9 4"}


def sequence_of(rows, title, first, last):
    """The diagram of the part of a story from one line of the script to another, as SVG."""
    layout = Layout(part_of(rows, first, last), columns_of(rows, first, last))
    return Sequence(layout, numbers_by_joining(rows)).document(title)


class Sequence:
    """A diagram, and the page on which it is drawn."""

    def __init__(self, layout, numbers):
        self.page = Page()
        self.layout = layout
        self.numbers = numbers
        self.ring_foot = 0

    def document(self, title):
        """Draws everything, and answers the page as SVG."""
        has_rings = any(isinstance(row, Picture) for row in self.layout.rows)
        width = self.layout.width + (RING_WIDTH if has_rings else 0)
        lines = wrapped(title, max(600, width) - 2 * MARGIN, TITLE)
        top = self.draw_title(lines)
        self.layout.place_rows(top + HEADER + 10)
        self.draw_lifelines(top)
        self.draw_tracks()
        for row, row_top in zip(self.layout.rows, self.layout.tops):
            self.draw(row, row_top)
        self.draw_notes()
        height = max(self.layout.foot, self.ring_foot) + MARGIN
        return self.page.document(max([width, *(width_of(line, TITLE, WORDS) + 2 * MARGIN for line in lines)]), height, title)

    def draw_title(self, lines):
        """Writes the title; answers where it ends."""
        for index, line in enumerate(lines):
            self.page.text(MARGIN, MARGIN + 12 + 20 * index, line, 15, WORDS, weight="bold")
        return MARGIN + 20 * len(lines) + 4

    def draw_lifelines(self, top):
        """Draws each silo's name and its line, from its joining to its death."""
        for silo in self.layout.columns:
            x = self.layout.x[silo]
            start, end = self.layout.births.get(silo, top + HEADER), self.layout.deaths.get(silo, self.layout.foot)
            self.page.line((x, top + HEADER), (x, start), stroke=PALE, dashes="1 5")
            self.page.line((x, start), (x, end), 1.3)
            width = width_of(silo) + 34
            self.page.box(x - width / 2, top, width, HEADER - 4, tint_of(self.numbers[silo]))
            self.page.text(x - width / 2 + 9, top + 17, str(self.numbers[silo]), 12, weight="bold")
            self.page.text(x + 9, top + 17, silo, anchor="middle")

    def draw_tracks(self):
        """Draws how long each letter was under way: beside its sender's line, from its sending to where its arrow starts."""
        for row, top in zip(self.layout.rows, self.layout.tops):
            if isinstance(row, (Delivery, Loss, Waiting)) and not row.is_again:
                x, start = self.layout.x_of(row.letter.sender), self.layout.sent_height(row.letter)
                aside = x + self.layout.tracks[row.letter.number]
                self.page.line((x, start), (aside, start + 4), dashes="2 2")
                self.page.line((aside, start + 4), (aside, top + ARROW), dashes="2 2")

    @singledispatchmethod
    def draw(self, row, top):
        """Draws a row."""

    @draw.register
    def _(self, row: Remark, top):
        lines = self.layout.remark_lines(row)
        self.page.box(MARGIN, top + 4, self.layout.width - 2 * MARGIN, LINE * len(lines) + 11, FAINT, "none")
        for index, line in enumerate(lines):
            self.page.text(MARGIN + 8, top + ARROW + LINE * index, line, 12.5, WORDS)

    @draw.register
    def _(self, row: Change, top):
        self.page.label(MARGIN, top + 12, row.words(), anchor="start", weight="bold")
        self.page.line((MARGIN, top + CHANGE), (self.layout.width - MARGIN, top + CHANGE), stroke=PALE, dashes="6 3")
        if row.dead() in self.layout.x:
            self.page.cross(self.layout.x[row.dead()], top + CHANGE)

    @draw.register
    def _(self, row: Step, top):
        self.draw_words(row, top, None)

    @draw.register
    def _(self, row: State, top):
        self.draw_words(row, top, "4 3")

    def draw_words(self, row, top, dashes):
        """Draws a box with words on a silo's line."""
        width = max(width_of(word) for word in row.words) + 14
        x = self.layout.x_of(row.silo)
        self.page.box(x - width / 2, top + 3, width, LINE * len(row.words) + 5, dashes=dashes)
        for index, word in enumerate(row.words):
            self.page.text(x, top + 17 + LINE * index, word, anchor="middle")

    @draw.register
    def _(self, row: Delivery, top):
        self.draw_arrow(row, top + ARROW)
        outward = 1 if self.layout.x_of(row.letter.receiver) > self.layout.x_of(row.letter.sender) else -1
        self.page.label(self.layout.x_of(row.letter.receiver) + 9 * outward, top + 24, row.effect, 11.5, "start" if outward > 0 else "end")

    def draw_arrow(self, row, y):
        """Draws the arrow of a letter that comes."""
        letter, start, end = row.letter, self.start_of(row), self.layout.x_of(row.letter.receiver)
        kind = "again" if row.is_again else "late" if row.is_late else "came"
        if letter.sender == letter.receiver:
            self.draw_loop(end, start, y, kind, letter.number)
            self.page.label(end + 44, y + 4, row.name(), anchor="start")
            return
        rightward = end > start
        back = 6 if rightward else -6
        self.page.line((start, y), (end - back, y), 1.4, dashes=DASHES.get(kind), class_=kind, data_letter=letter.number)
        self.page.head(end, y, rightward)
        self.page.label(end - self.layout.gap / 2 if rightward else end + self.layout.gap / 2, y - 5, row.name())

    def draw_loop(self, x, start, y, kind, letter_number):
        """Draws the arrow of a letter that comes to its own sender."""
        path = f"M{number(start)},{number(y - 7)} h{number(x + 32 - start)} q8,0 8,7 q0,7 -8,7 h-26"
        self.page.shape("path", d=path, fill="none", stroke=INK, stroke_width=1.4, **dashed(DASHES.get(kind)), class_=kind,
                        data_letter=letter_number)
        self.page.head(x, y + 7, False)

    @draw.register
    def _(self, row: Loss, top):
        self.draw_stub(row, top + ARROW, "lost")
        self.page.cross(self.stub_end(row.letter), top + ARROW)

    @draw.register
    def _(self, row: Waiting, top):
        self.draw_stub(row, top + ARROW, "waiting")
        self.page.shape("circle", cx=self.stub_end(row.letter), cy=top + ARROW, r=5, fill=PAPER, stroke=INK)

    def stub_end(self, letter):
        """Where the arrow of a letter that doesn't come ends."""
        return self.layout.x_of(letter.sender) + (-1 if self.layout.is_leftward(letter) else 1) * self.layout.gap * 0.62

    def draw_stub(self, row, y, kind):
        """Draws the arrow of a letter that doesn't come."""
        start, end = self.start_of(row), self.stub_end(row.letter)
        dashes = DASHES["again"] if row.is_again else None
        self.page.line((start, y), (end, y), 1.4, dashes=dashes, class_=kind, data_letter=row.letter.number)
        self.page.label(start + (8 if end > start else -8), y - 8, row.name(), anchor="start" if end > start else "end")

    def start_of(self, row):
        """Where a letter's arrow starts: at its track, or at its sender's line if it has come before."""
        return self.layout.x_of(row.letter.sender) + (0 if row.is_again else self.layout.tracks[row.letter.number])

    @draw.register
    def _(self, row: Answer, top):
        self.page.label(MARGIN, top + 17, row.text, anchor="start")

    @draw.register
    def _(self, row: Picture, top):
        dump, left = row.dump, self.layout.width + 8
        ring_top = max(top + 4, self.ring_foot + 22)
        numbers = {**{silo.silo: 0 for silo in dump.rows}, **self.numbers}
        self.page.line((MARGIN, top + 13), (self.layout.width - 6, top + 13), stroke=PALE, dashes="1 4")
        self.page.line((self.layout.width - 6, top + 13), (left + 2, ring_top + 9), stroke=PALE, dashes="1 4")
        self.page.text(left + 6, ring_top + 13, f"the ring in view {dump.current}", weight="bold")
        center = (left + 72 + RADIUS, ring_top + 38 + RADIUS)
        draw_ring(self.page, dump, center, RADIUS, numbers)
        self.ring_foot = draw_summary(self.page, dump, left + 6, center[1] + RADIUS + 38, numbers) - 16

    def draw_notes(self):
        """Tells under the last ring what a ring shows."""
        for note in NOTES if self.ring_foot else ():
            self.ring_foot += LINE
            self.page.text(self.layout.width + 14, self.ring_foot, note, 10.5, fill="#444444")
