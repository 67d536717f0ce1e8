"""When activations work, by one monotonic clock: from when `firm` was read until just before `close` or `offer` was written, or until the
process has ended. No two works of one grain may overlap, and of two the later one never has a lower token."""

from dataclasses import dataclass
from itertools import groupby, pairwise
from time import monotonic

FOR_EVER = float("inf")


@dataclass
class Work:
    """A time in which an activation works."""
    grain: str
    activation: str
    token: int
    start: float
    end: float = FOR_EVER


class Works:
    """All works that there were, and those that go on."""

    def __init__(self):
        self.all = []
        self.going = {}

    def begin(self, silo, grain, activation, token):
        """A silo's activation begins to work, or goes on where its close was refused."""
        work = Work(grain, activation, token, monotonic())
        self.all.append(work)
        self.going[silo, grain] = work

    def end(self, silo, grain):
        """A silo's activation ends its work; answers it, or nothing where it didn't work."""
        work = self.going.pop((silo, grain), None)
        if work:
            work.end = monotonic()
        return work

    def end_all(self, silo):
        """A silo's process has ended."""
        for grain in self.of(silo):
            self.end(silo, grain)

    def of(self, silo):
        """The grains that work on a silo."""
        return [grain for owner, grain in self.going if owner == silo]

    def activation_of(self, grain):
        """An activation of a grain that works, or nothing."""
        return next((work.activation for (_, worked), work in self.going.items() if worked == grain), None)

    def overlaps(self):
        """Pairs of works of one grain of which the later began before the earlier had ended."""
        return [pair for works in self.by_grain() for pair in overlaps_in(works)]

    def falls(self):
        """Pairs of works of one grain, one behind the other, of which the later has a lower token."""
        return [pair for works in self.by_grain() for pair in pairwise(works) if pair[1].token < pair[0].token]

    def by_grain(self):
        """The works of each grain, in order of their starts."""
        by_grain = sorted(self.all, key=lambda work: (work.grain, work.start))
        return [list(works) for _, works in groupby(by_grain, lambda work: work.grain)]


def overlaps_in(works):
    """The overlaps among works of one grain, in order of their starts: of each with the one before it that ends last."""
    longest = None
    for work in works:
        if longest and work.start < longest.end:
            yield longest, work
        if not longest or work.end > longest.end:
            longest = work
