"""What happened in a script, row by row: made from its lines and what each of them printed."""

from dataclasses import dataclass, field

from drawing.dump import read_dump
from drawing.page import Unreadable
from drawing.script import is_mail


@dataclass
class Letter:
    """A letter, as `mail` tells it."""
    number: int
    kind: str
    sender: str
    receiver: str
    version: int

    def name(self):
        """Its number and kind."""
        return f"{self.number} {self.kind}"


@dataclass
class Row:
    """Something to be drawn, and the line of the script by which it happened."""
    line: int = field(default=0, kw_only=True)
    sent: range = field(default=range(0), kw_only=True)


@dataclass
class Remark(Row):
    """A remark of the script."""
    text: str


@dataclass
class Change(Row):
    """A change of the membership."""
    version: int
    silo: str
    became: str
    replaced: str = ""

    def words(self):
        """The change in words."""
        return f"view {self.version}: {self.silo} {self.became}" + (f", {self.replaced} dead" if self.replaced else "")

    def dead(self):
        """The silo that died by it, or none."""
        return self.silo if self.became == "dead" else self.replaced


@dataclass
class Step(Row):
    """What a silo did by itself, in a few short lines."""
    silo: str
    words: list


@dataclass
class State(Row):
    """What `show` says of a range of a silo, in short lines."""
    silo: str
    words: list


@dataclass
class Delivery(Row):
    """A letter came."""
    letter: Letter
    effect: str
    is_again: bool
    is_late: bool

    def name(self):
        """The letter, and what was odd about its coming."""
        return self.letter.name() + (", again" if self.is_again else ", late" if self.is_late else "")


@dataclass
class Loss(Row):
    """A letter was lost, perhaps after it had come."""
    letter: Letter
    is_again: bool

    def name(self):
        """The letter, and that it was lost."""
        return f"{self.letter.name()}, lost" + (" after it came" if self.is_again else "")


@dataclass
class Waiting(Row):
    """A letter that is still in the mail at the end, and never came."""
    letter: Letter
    is_again = False

    def name(self):
        """The letter, and that it never came."""
        return f"{self.letter.name()}, never came"


@dataclass
class Answer(Row):
    """A line of the output that is about no silo alone."""
    text: str


@dataclass
class Picture(Row):
    """A dump of the cluster."""
    dump: object


def chronicle_of(pairs):
    """The rows that the lines of a script and their output tell."""
    teller = Teller(letters_of(pairs))
    for line, printed in pairs:
        teller.tell(line, printed)
    return teller.rows + teller.waiting(pairs[-1][0].number)


def letters_of(pairs):
    """All letters that the output names, by number."""
    letters = {}
    for _, printed in pairs:
        for words in (said.split(" ") for said in printed if is_mail(said)):
            letters[int(words[0])] = Letter(int(words[0]), words[1], words[2], words[3], int(words[4]))
    return letters


def short(activation):
    """An activation on a silo that is named already: its count."""
    return "!" + activation.rpartition("!")[2]


class Teller:
    """Goes through a script's lines and writes the rows."""

    def __init__(self, letters):
        self.letters = letters
        self.rows = []
        self.sent = []
        self.gone = set()
        self.came = set()
        self.newest = {}
        self.seen = {}
        self.remark_ends = 0

    def tell(self, line, printed):
        """Writes the rows of one line of the script."""
        if line.is_remark():
            self.tell_remark(line)
        for said in printed:
            if not is_mail(said):
                self.tell_line(line, said)

    def tell_remark(self, line):
        """Writes a remark, or makes the one of the line before longer, if that isn't the title."""
        if 1 < self.remark_ends == line.number - 1 and isinstance(self.rows[-1], Remark):
            self.rows[-1].text += f" {line.remark()}"
        else:
            self.rows.append(Remark(line.remark(), line=line.number))
        self.remark_ends = line.number

    def tell_line(self, line, said):
        """Writes the row of one line of the output."""
        try:
            event, sent = without_sent(said)
            row = self.row_of(line, event)
        except (IndexError, ValueError):
            raise Unreadable(f"line {line.number}: the output's `{said[:80]}` is none of the lines that a script prints") from None
        self.sent += sent
        if row is not None:
            row.line, row.sent = line.number, sent
            self.rows.append(row)

    def row_of(self, line, said):
        """The row of a line of the output, none for what isn't drawn."""
        words = said.split(" ")
        if words[1:2] == ["sees"]:
            self.seen[words[0]] = int(words[2])
            return Step(words[0], [" ".join(words[1:])])
        tellers = {"view": self.change, "delivered": self.delivery, "lost": self.loss, "range": self.state, "started": self.own_step,
                   "closing": self.own_step, "cancelled": self.own_step, "offered": self.own_step,
                   "nudged": lambda *_: Step(words[1], ["nudged"]),
                   "finding": self.asked_step, "cached": self.asked_step, "forgot": self.asked_step, "nothing": self.asked_step,
                   "refused": lambda *_: Answer(f"{said}: {' '.join(line.words)}"), "version": nothing, "silo": nothing,
                   "held": nothing}
        if said.startswith("{"):
            return Picture(read_dump(said))
        return tellers.get(words[0], lambda *_: Answer(said))(line, words)

    def change(self, _, words):
        """The row of a change of the membership."""
        return Change(int(words[1]), words[3], words[2], words[5] if len(words) > 5 else "")

    def own_step(self, _, words):
        """The row of what a silo did with an activation of its own."""
        target = [" ".join(words[3:])] if len(words) > 3 else []
        return Step(words[1].rpartition("!")[0], [f"{words[0]} {short(words[1])}", words[2], *target])

    def asked_step(self, line, words):
        """The row of a find or a forget, whose silo only the script names."""
        return Step(line.words[1], [" ".join(words[:-1]), words[-1]])

    def state(self, _, words):
        """The row of a range that `show` tells."""
        return State(words[2], [words[1], " ".join(words[3:])])

    def delivery(self, _, words):
        """The row of a letter that came."""
        letter = self.letter(words[1])
        is_again = letter.number in self.came
        was_overtaken = self.newest.get(letter.receiver, 0) > letter.number
        is_stale = self.seen.get(letter.receiver, 0) > letter.version
        self.came.add(letter.number)
        self.newest[letter.receiver] = max(letter.number, self.newest.get(letter.receiver, 0))
        return Delivery(letter, " ".join(words[3:]), is_again, not is_again and (was_overtaken or is_stale))

    def loss(self, _, words):
        """The row of a letter that was lost."""
        letter = self.letter(words[1])
        self.gone.add(letter.number)
        return Loss(letter, letter.number in self.came)

    def letter(self, text):
        """The letter of a number."""
        if int(text) not in self.letters:
            raise Unreadable(f"letter {text} is in no `mail` of the output: --with-mail prints the script that has enough of them")
        return self.letters[int(text)]

    def waiting(self, line):
        """The rows of letters that never came."""
        left = [number for number in self.sent if number not in self.came | self.gone]
        return [Waiting(self.letter(str(number)), line=line) for number in left]


def nothing(*_):
    """No row."""
    return None


def without_sent(said):
    """A line of the output without what it says of the letters sent, and their numbers."""
    event, marked, numbers = said.partition(" sent ")
    if not marked:
        return said, range(0)
    first, last = numbers.split("..")
    return event, range(int(first), int(last) + 1)
