#!/usr/bin/env python3
"""Writes a script for `tools/bench play` to standard output, with stated places and hashes:

  scripts.py cluster GRAINS   four silos of 30 points on which so many grains wake, are looked up, and close, while a fifth one joins
                              and one dies
  scripts.py journal LINES    four silos and 50,000 grains that wake, and then so many lines of all commands, mixed by a fixed rule
  scripts.py texts LINES      so many lines that are read, and mostly answered, and change nothing: owners, places, refusals, remarks
"""

import sys

CIRCLE = 1 << 32
# A number whose multiples lie all over the circle.
SPREAD = 2_654_435_761
# The grains of the journal.
GRAINS = 50_000
POLICIES = ("prefer_local", "hash_based", "least_held")


class Numbers:
    """Numbers that always come in the same order: of a linear congruential generator, of which the upper 31 bits are drawn."""

    def __init__(self):
        self.state = 1

    def below(self, bound):
        self.state = (self.state * 6_364_136_223_846_793_005 + 1_442_695_040_888_963_407) % (1 << 64)
        return (self.state >> 33) % bound


def silo(number, generation=1):
    return f"10.0.0.{number}:1000@{generation}"


def grain(number):
    return f"user/grain-{number}#{number * SPREAD % CIRCLE}"


def join(number, generation=1):
    places = " ".join(str((number * 30 + point) * SPREAD % CIRCLE) for point in range(1, 31))
    return f"join {silo(number, generation)} {places}"


def by_sixteens(count, line):
    """So many lines, settled sixteen at a time."""
    for number in range(count):
        yield line(number)
        if number % 16 == 15:
            yield "settle"
    yield "settle"


def opening(grains):
    """Four silos, which see each other, and so many grains that wake on them in turn."""
    yield from (join(number) for number in range(1, 5))
    yield from ("sync", "settle")
    yield from by_sixteens(grains, lambda number: f"wake {silo(number % 4 + 1)} {grain(number)}")


def cluster(grains):
    yield from opening(grains)
    yield from by_sixteens(grains, lambda number: f"find {silo((number + 1) % 4 + 1)} {grain(number)}")
    yield from (join(5), "sync", "settle", f"kill {silo(4)}", "sync", "settle")
    yield from by_sixteens(grains, lambda number: f"close {silo(number % 4 + 1)} {grain(number)}")


def change(step):
    """A fifth silo joins and leaves, or dies, and comes again."""
    fifth = silo(5, step // 3 + 1)
    yield (join(5, step // 3 + 1), f"leave {fifth}", f"kill {fifth}")[step % 3]
    yield from ("sync", "settle")


def any_line(numbers):
    """A line of any of the commands that are short to tell."""
    one, other = silo(numbers.below(4) + 1), silo(numbers.below(4) + 1)
    name = grain(numbers.below(GRAINS))
    lines = (
        (72, f"find {one} {name}"),
        (79, f"wake {one} {name}"),
        (84, f"close {one} {name}"),
        (88, f"offer {one} {name} {other}"),
        (89, f"forget {one} {name}"),
        (90, f"owner {numbers.below(1 << 31)}"),
        (91, f"place {one} {POLICIES[numbers.below(3)]} {name}"),
        (92, f"nudge {one}"),
        (93, f"deliver {numbers.below(300_000) + 1}"),
        (94, f"lose {numbers.below(600_000) + 1}"),
        (95, "; a remark"),
        (100, "settle"),
    )
    drawn = numbers.below(100)
    return next(line for bound, line in lines if drawn < bound)


def journal(lines):
    alone = silo(9)
    yield from (join(9), f"see {alone} 1", f"wake {alone} user/first#7", "mail", "settle", "dump", "show", f"kill {alone}")
    yield from opening(GRAINS)
    numbers = Numbers()
    for step in range(9):
        yield from (any_line(numbers) for _ in range(lines // 9))
        yield "settle"
        yield from change(step)
        yield "show"
    yield "check"


def texts(lines):
    yield from opening(64)
    for number in range(lines):
        yield (
            f"owner {number * SPREAD % CIRCLE}",
            f"find {silo(9)} {grain(number)}",
            f"place {silo(number % 4 + 1)} prefer_local {grain(number)}",
            f"deliver {1_000_000 + number}",
            f"; remark {number}",
        )[number % 5]


if __name__ == "__main__":
    kind, count = {"cluster": cluster, "journal": journal, "texts": texts}[sys.argv[1]], int(sys.argv[2])
    sys.stdout.write("".join(f"{line}\n" for line in kind(count)))
