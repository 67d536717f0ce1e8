"""The changes of membership of a deployment: one sequence, each change the line that silos are told."""

import re
from dataclasses import dataclass, field

SILO = re.compile(r"(\d+)\.(\d+)\.(\d+)\.(\d+):(\d+)@(\d+)")


@dataclass
class Row:
    """A silo that ever joined, with the versions in which it joined, began to leave and became dead; 0 for never."""
    silo: str
    joined: int
    places: list
    left: int = 0
    dead: int = 0


@dataclass
class Changes:
    """All changes decided so far, and what they make of each silo."""
    lines: list = field(default_factory=list)
    rows: dict = field(default_factory=dict)

    def version(self):
        """The version that the last change made."""
        return len(self.lines)

    def decide(self, kind, silo, *places):
        """Decides the next change; answers its line."""
        return self.take(" ".join([kind, str(self.version() + 1), silo, *map(str, places)]))

    def take(self, line):
        """Takes a line as the next change, and answers it."""
        kind, version, silo, *places = [word for word in line.split() if not word.startswith("token=")]
        if int(version) != self.version() + 1:
            raise ValueError(f"`{line}` is not change {self.version() + 1}")
        self.lines.append(line)
        if kind == "joined":
            self.replace(silo)
            self.rows[silo] = Row(silo, self.version(), [int(place) for place in places])
        elif kind == "leaving":
            self.rows[silo].left = self.version()
        elif kind == "dead":
            self.rows[silo].dead = self.version()
        else:
            raise ValueError(f"`{line}` is no change")
        return line

    def replace(self, silo):
        """A silo that joins makes an older one of its endpoint dead."""
        for row in self.living():
            if endpoint_of(row.silo) == endpoint_of(silo):
                row.dead = self.version()

    def living(self):
        """The rows of the silos that aren't dead."""
        return [row for row in self.rows.values() if not row.dead]

    def owner(self, hashed):
        """The silo and the index of the point that owns a hash: of those that are active the one the fewest steps back, of several the
        first."""
        points = [((hashed - place) % 2**32, address_of(row.silo), index, row.silo)
                  for row in self.active() for index, place in enumerate(row.places)]
        _, _, index, silo = min(points)
        return silo, index

    def place(self, hashed):
        """Where a grain of that hash is to be by it."""
        active = self.active()
        return active[hashed % len(active)].silo

    def active(self):
        """The rows of the silos that are active, by address."""
        return [row for row in self.in_order() if not row.dead and not row.left]

    def in_order(self):
        """The rows by address."""
        return sorted(self.rows.values(), key=lambda row: address_of(row.silo))


def endpoint_of(silo):
    """The endpoint of a silo."""
    return silo.rpartition("@")[0]


def address_of(silo):
    """The numbers of a silo's text, by which silos are in order."""
    found = SILO.fullmatch(silo)
    if not found:
        raise ValueError(f"`{silo}` is no silo")
    return tuple(map(int, found.groups()))


def whole_dump(changes, nodes, hashing, points):
    """The dump of a deployment: what was decided, and the node of each silo that isn't dead, as its process dumped it."""
    living = {row.silo for row in changes.living()}
    rows = [vars(row) for row in changes.in_order()]
    nodes = sorted((node for node in nodes if node["silo"] in living), key=lambda node: address_of(node["silo"]))
    return {"current": changes.version(), "hashing": hashing, "nodes": nodes, "points": points, "rows": rows}
