"""A dump of a cluster, as `dump` prints it and docs/RULES.md tells it."""

import json
from dataclasses import dataclass
from hashlib import sha256
from itertools import zip_longest

from drawing.page import Unreadable

CIRCLE = 2**32


@dataclass
class Row:
    """A silo that ever joined, and what became of it."""
    silo: str
    joined: int
    left: int
    dead: int
    places: list

    def status(self, version):
        """Its status in the view of this version."""
        for name, since in (("dead", self.dead), ("leaving", self.left)):
            if 0 < since <= version:
                return name
        return "active"


@dataclass
class Piece:
    """A range that a silo holds."""
    start: int
    size: int
    state: str
    awaited: str
    entries: list


@dataclass
class Node:
    """What a silo knows."""
    silo: str
    seen: int
    pieces: list
    held: list


@dataclass
class Dump:
    """All of a cluster."""
    current: int
    hashing: str
    points: int
    rows: list
    nodes: list

    def live_nodes(self):
        """The nodes whose silos aren't dead."""
        dead = {row.silo for row in self.rows if row.status(self.current) == "dead"}
        return [node for node in self.nodes if node.silo not in dead]

    def ring(self):
        """The points of the current view: pairs of a place and a silo, one for each place, by place."""
        first = {}
        for row in self.rows:
            if row.status(self.current) == "active":
                for place in self.places(row):
                    first.setdefault(place, row.silo)
        return sorted(first.items())

    def owned(self):
        """The ranges of the current view: triples of a start, a size and the owner."""
        ring = self.ring()
        ends = ring[1:] + ring[:1]
        return [(place, (end - place) % CIRCLE or CIRCLE, silo) for (place, silo), (end, _) in zip(ring, ends)]

    def places(self, row):
        """Where a silo's points are."""
        if self.hashing == "stated":
            return row.places
        return [text_hash(f"{row.silo}#{index}") for index in range(self.points)]

    def hash_of(self, grain):
        """Where a grain is on the circle."""
        stated = stated_hash(grain) if self.hashing == "stated" else None
        return text_hash(grain) if stated is None else stated

    def grains(self):
        """Each grain that is entered or active, by hash, with its entries (keeper, activation) and activations (activation, phase)."""
        told = {}
        for node in self.live_nodes():
            for piece in node.pieces:
                for grain, activation in piece.entries:
                    told.setdefault(grain, ([], []))[0].append((node.silo, activation))
            for grain, activation, phase in node.held:
                told.setdefault(grain, ([], []))[1].append((activation, phase))
        return sorted(told.items(), key=lambda pair: (self.hash_of(pair[0]), pair[0]))

    def grain_lines(self):
        """The lines of a table of grains: grain, hash, keeper, entry, activation, phase."""
        for grain, (entries, activations) in self.grains():
            named = (grain, str(self.hash_of(grain)))
            for (keeper, entry), (activation, phase) in zip_longest(entries, activations, fillvalue=("", "")):
                yield (*named, keeper, entry, activation, phase)
                named = ("", "")


def text_hash(text):
    """The hash of a text: the first four bytes of its SHA-256."""
    return int.from_bytes(sha256(text.encode()).digest()[:4], "big")


def stated_hash(grain):
    """The hash that a grain's key states behind its last number sign, if it does."""
    _, sign, digits = grain.partition("/")[2].rpartition("#")
    is_number = sign and digits.isascii() and digits.isdigit() and str(int(digits)) == digits
    return int(digits) if is_number and int(digits) < CIRCLE else None


def read_dump(text):
    """The dump that a text tells."""
    try:
        return dump_of(json.loads(text))
    except json.JSONDecodeError as error:
        raise Unreadable(f"this is no JSON: {error}") from None
    except (KeyError, TypeError, ValueError, AttributeError) as error:
        raise Unreadable(f"this JSON is no dump of a cluster: {type(error).__name__}, {error}") from None


def dump_of(value):
    """The dump that a JSON value tells."""
    rows = [row_of(row) for row in value["rows"]]
    nodes = [node_of(node) for node in value["nodes"]]
    return Dump(whole(value["current"]), value["hashing"], whole(value["points"]), rows, nodes)


def row_of(value):
    """The row that a JSON value tells."""
    places = [whole(place) for place in value["places"]]
    return Row(word(value["silo"]), whole(value["joined"]), whole(value["left"]), whole(value["dead"]), places)


def node_of(value):
    """The node that a JSON value tells."""
    held = [(word(one["grain"]), word(one["activation"]), word(one["phase"])) for one in value["held"]]
    return Node(word(value["silo"]), whole(value["seen"]), [piece_of(piece) for piece in value["pieces"]], held)


def piece_of(value):
    """The piece that a JSON value tells."""
    start, size = value["range"].split("+")
    entries = [(word(grain), word(activation)) for grain, activation in value["entries"]]
    return Piece(int(start), int(size), word(value["state"]), word(value["from"]), entries)


def whole(value):
    """A value that is a number without sign or fraction."""
    if type(value) is not int or value < 0:
        raise ValueError(f"{value!r}, which is no such number")
    return value


def word(value):
    """A value that is a text."""
    if type(value) is not str:
        raise ValueError(f"{value!r}, which is no text")
    return value
