"""Where the columns and rows of a sequence diagram are."""

from functools import singledispatchmethod

from drawing.chronicle import Answer, Change, Delivery, Loss, Picture, Remark, State, Step, Waiting
from drawing.page import width_of, wrapped

MARGIN = 20
LINE = 15
HEADER = 30
CHANGE = 24
ARROW = 20
TRACK = 6
MOST_TRACKS = 6
LEAST_GAP = 230


def numbers_by_joining(rows):
    """A number for each silo, from 1, in the order in which they joined."""
    joined = [row.silo for row in rows if isinstance(row, Change) and row.became == "joined"]
    return {silo: index for index, silo in enumerate(joined, 1)}


def part_of(rows, first, last):
    """The rows whose lines of the script are among these, without the title."""
    return [row for row in rows if first <= row.line <= last and not (isinstance(row, Remark) and row.line == 1)]


def columns_of(rows, first, last):
    """The silos that live in the part of a story from one line of the script to another, by their joining."""
    changes = [row for row in rows if isinstance(row, Change) and row.line <= last]
    dead = {row.dead() for row in changes if row.line < first}
    return list(dict.fromkeys(row.silo for row in changes if row.became == "joined" and row.silo not in dead))


class Layout:
    """The columns and rows of a diagram, in pixels."""

    def __init__(self, rows, columns):
        self.rows = rows
        self.columns = columns
        self.births, self.deaths, self.sent_at, self.tracks = {}, {}, {}, {}
        self.tops = []
        self.place_columns()

    def place_columns(self):
        """Decides where the silos' lines are, by the widest thing between two of them."""
        boxes = [width_of(word) for row in self.rows if isinstance(row, (Step, State)) for word in row.words]
        names = [width_of(row.name()) for row in self.rows if isinstance(row, (Delivery, Loss, Waiting))]
        effects = [width_of(row.effect) for row in self.rows if isinstance(row, Delivery)]
        headers = [width_of(silo) + 30 for silo in self.columns]
        half = max([*boxes, *headers, 60]) / 2 + 8
        self.gap = max([LEAST_GAP, 2 * half + 12, *(name + 80 for name in names)])
        left = MARGIN + max([half, *(effect + 16 for effect in effects)])
        right = max([half, *(name + 60 for name in names)]) + MARGIN
        self.x = {silo: left + index * self.gap for index, silo in enumerate(self.columns)}
        told = [width_of(text_over_all(row)) + 2 * MARGIN for row in self.rows]
        self.width = max([max(self.x.values(), default=left) + right, *told])

    def place_rows(self, top):
        """Decides where the rows are, from the top on, and from where each letter goes."""
        self.top = top
        for row in self.rows:
            self.tops.append(top)
            foot = top + self.height(row)
            sent = foot - 8 if isinstance(row, (Step, State)) else top + ARROW + 6
            self.sent_at.update(dict.fromkeys(row.sent, sent))
            if isinstance(row, Change):
                self.births.update({row.silo: top + CHANGE} if row.became == "joined" else {})
                self.deaths.update({row.dead(): top + CHANGE} if row.dead() else {})
            top = foot
        self.foot = top + 10
        self.place_tracks()

    def place_tracks(self):
        """Decides beside its sender's line how far each letter's track is."""
        ends = {}
        for row, top in zip(self.rows, self.tops):
            if isinstance(row, (Delivery, Loss, Waiting)) and not row.is_again:
                letter = row.letter
                side = -1 if self.is_leftward(letter) else 1
                track = free_track(ends.setdefault((letter.sender, side), []), self.sent_height(letter), top + ARROW)
                self.tracks[letter.number] = side * TRACK * (track + 1)

    def sent_height(self, letter):
        """Where a letter was sent; above all rows if that was before them."""
        return self.sent_at.get(letter.number, self.top - 10)

    def x_of(self, silo):
        """Where a silo's line is; left of all where the silo isn't drawn."""
        return self.x.get(silo, MARGIN)

    def is_leftward(self, letter):
        """Whether a letter goes to the left."""
        return self.x_of(letter.receiver) < self.x_of(letter.sender)

    def remark_lines(self, row):
        """The lines of a remark."""
        return wrapped(row.text, self.width - 2 * MARGIN - 16, 12.5)

    @singledispatchmethod
    def height(self, row):
        """How high a row is."""
        return 34

    @height.register
    def _(self, row: Remark):
        return LINE * len(self.remark_lines(row)) + 22

    @height.register
    def _(self, row: Step | State):
        return LINE * len(row.words) + 16

    @height.register
    def _(self, row: Answer | Picture):
        return 26


def text_over_all(row):
    """The text of a row that is about no silo alone, on one line."""
    return row.words() if isinstance(row, Change) else row.text if isinstance(row, Answer) else ""


def free_track(ends, start, end):
    """The first track that is free from its start on, which it then is no more up to its end."""
    for index, taken in enumerate(ends):
        if taken <= start:
            ends[index] = end
            return index
    if len(ends) < MOST_TRACKS:
        ends.append(end)
    return len(ends) - 1
