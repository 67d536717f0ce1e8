"""When a silo is nudged, and of what. A nudge of a grain gives each request about it a new number, and an answer under an old one counts
no more: a grain that is nudged faster than its letters go round is never done. So it is nudged when what the silo has waited for, of that
grain, hasn't come after a pause, and each pause is twice as long as the one before. The ranges are nudged so, too."""

from time import monotonic

SHORTEST = 1
LONGEST = 16
RANGES = "ranges"
BEGINS = {"started": "activation", "closing": "activation", "offered": "activation", "finding": "find"}
ENDS = {"firm": "activation", "taken": "activation", "ended": "activation", "found": "find", "nothing": "find"}
COUNTS = ("more", "complete")


class Wait:
    """What a silo waits for of a grain, or of its ranges, and the pause after which that is nudged."""

    def __init__(self):
        self.things = []
        self.has_come()

    def has_come(self):
        """Something of it has come."""
        self.pause = SHORTEST
        self.since = monotonic()

    def is_over(self):
        """Whether it is to be nudged now."""
        return monotonic() - self.since >= self.pause

    def nudged(self):
        """It was nudged."""
        self.pause = min(2 * self.pause, LONGEST)
        self.since = monotonic()


class Patience:
    """What a silo waits for, under the word by which that is nudged: a grain, or `ranges`."""

    def __init__(self):
        self.waits = {}

    def wrote(self, letter):
        """The silo wrote a letter: by an ask it waits for a range, by a query or a survey for what a silo tells of ranges."""
        _, _, to, _, kind, *said = letter.split()
        if kind == "ask":
            self.begin_once(said[0])
        elif kind == "query":
            self.begin_once(f"{said[0]} {to}")
        elif kind == "survey":
            for hashes in said:
                self.begin_once(f"{hashes} {to}")

    def answered(self, asked, said):
        """The silo answered a line."""
        words, what = asked.split(), said[0]
        if what in BEGINS:
            self.begin(grain_of(said), BEGINS[what])
        elif what in ENDS:
            self.end(grain_of(said), ENDS[what])
        elif said[1:2] == ["sees"]:
            self.waits.pop(RANGES, None)
        elif what == "delivered":
            for thing in ended_by(words, said[2]):
                self.end(RANGES, thing)

    def things_of(self, word):
        """What is waited for under the word."""
        return self.waits[word].things if word in self.waits else []

    def begin_once(self, thing):
        """The silo waits for something of its ranges, unless it does already."""
        if thing not in self.things_of(RANGES):
            self.begin(RANGES, thing)

    def begin(self, word, thing):
        """The silo waits for something more."""
        self.waits.setdefault(word, Wait()).things.append(thing)

    def end(self, word, thing):
        """The silo doesn't wait for that any more."""
        if thing in self.things_of(word):
            self.waits[word].things.remove(thing)
            self.waits[word].has_come()
            if not self.waits[word].things:
                del self.waits[word]

    def over(self):
        """The words of what is to be nudged now."""
        return [word for word, wait in self.waits.items() if wait.is_over()]

    def nudged(self, words):
        """The silo was nudged of these."""
        for word in words:
            self.waits[word].nudged()


def grain_of(said):
    """The grain that an answer is about."""
    return said[1] if said[0] in ("taken", "nothing", "finding") else said[2]


def ended_by(words, effect):
    """What a silo doesn't wait for any more once a letter has come to it with this effect."""
    _, teller, _, _, kind, *said = words
    if (kind, effect) in (("page", "installed"), ("missing", "recovering")):
        return [said[0]]
    if kind == "empty" and effect in COUNTS:
        return [f"{hashes} {teller}" for hashes in said]
    if kind == "report" and effect in COUNTS and "last" in said:
        return [f"{said[0]} {teller}"]
    return []
