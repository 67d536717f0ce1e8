#!/usr/bin/env python3
"""activations.py PROGRAM COUNT: of three silos one holds so many registered activations, and then another one joins and one dies, so that
entries are handed over, and recovered by reports. Times are a process's own, of all that it does meanwhile; where several do something,
of the one that takes longest."""

import sys
from random import Random

from silos import Mail, Silo, name_of

# So many wake at a time, are looked up, and are asked for in reports.
PORTION = 10_000
LOOKS = 10_000
REPORTS = 1_000


class Cluster:
    def __init__(self, program, count):
        self.count = count
        self.owner, self.holder, self.fresh = self.silos = [Silo(program, name_of(number)) for number in range(3)]
        self.mail = Mail(self.silos)
        self.random = Random(count)
        self.joined = [f"joined {version} {silo.name}" for version, silo in enumerate(self.silos, 1)]

    def carried(self, lines):
        """The holder is told these lines, and all that is sent for them is carried: other answers, and the holder's processor time."""
        before = self.holder.seconds()
        answers = self.mail.carry(self.holder.say(lines))
        return answers, self.holder.seconds() - before

    def tell(self, what, seconds, calls=1):
        print(f"{self.count:9,} {what:48} {seconds / calls * 1e6:14,.2f} µs", flush=True)

    def start(self):
        self.mail.carry([it for silo in self.silos[:2] for it in silo.say([*self.joined[:2], "see 2"])])

    def wakes(self):
        empty = [silo.megabytes()[0] for silo in self.silos]
        took = firm = 0
        for first in range(0, self.count, PORTION):
            names = range(first, min(first + PORTION, self.count))
            answers, seconds = self.carried([f"wake user/grain-{number}" for number in names])
            firm += sum(line.startswith("firm ") for line in answers)
            took += seconds
        if firm != self.count:
            raise SystemExit(f"{firm} of {self.count} are registered")
        self.tell("a registration, at the silo that holds it", took, self.count)
        self.memory(empty)

    def memory(self, empty):
        """The owner has entries alone, the holder its share of the entries and all activations."""
        grown = [(silo.megabytes()[0] - past) * (1 << 20) for silo, past in zip(self.silos, empty)]
        kept = [silo.entries() for silo in self.silos[:2]]
        entry = grown[0] / kept[0]
        print(f"{self.count:9,} an entry takes {entry:.0f} bytes, an activation {(grown[1] - kept[1] * entry) / self.count:.0f}", flush=True)

    def looks(self):
        grains = [self.random.randrange(self.count) for _ in range(LOOKS)]
        answers, took = self.carried([f"find user/grain-{number}" for number in grains])
        if sum(line.startswith(("found ", "cached ")) for line in answers) != LOOKS:
            raise SystemExit("not all were found")
        self.tell("a look-up, at the silo that asks", took, LOOKS)

    def reports(self):
        behind = [f"user/grain-{self.random.randrange(self.count)}" for _ in range(REPORTS)]
        letters = [f"letter {self.owner.name} {self.holder.name} 2 query 0+4294967296 {grain}" for grain in behind]
        answers, took = self.holder.timed(letters)
        told = [line.count("!") for line in answers if " report " in line and line.startswith("letter ")]
        self.tell(f"a report, of {sum(told) / len(told):.0f} activations", took, REPORTS)

    def texts(self):
        for word in ("show", "dump"):
            answers, took = self.holder.timed([word])
            size = sum(len(line) + 1 for line in answers) / 1e6
            self.tell(f"`{word}`, {size:.1f} MB", took)

    def joins(self):
        for silo in self.silos[:2]:
            kept = silo.entries()
            silo.say(self.joined[2:])
            _, took = silo.timed(["see 3"])
            self.tell(f"a view is installed, {kept:,} entries", took)
        self.settles("a silo joins", [self.fresh], [*self.joined, "see 3"])

    def dies(self):
        self.silos.remove(self.owner)
        del self.mail.silos[self.owner.name]
        self.owner.end()
        self.settles("a silo dies", self.silos, [f"dead 4 {self.owner.name}", "see 4"])

    def settles(self, what, told, lines):
        """These silos are told these lines, and all ranges settle, with an entry for each activation."""
        letters, messages, before = self.mail.letters, self.mail.messages, [silo.seconds() for silo in self.silos]
        self.mail.carry([answer for silo in told for answer in silo.say(lines)])
        took = max(silo.seconds() - past for silo, past in zip(self.silos, before))
        if sum(silo.entries() for silo in self.silos) != self.count:
            raise SystemExit("entries are lacking")
        self.tell(f"{what}: {self.mail.letters - letters:,} letters in {self.mail.messages - messages:,} messages", took)


def activations(program, count):
    cluster = Cluster(program, count)
    for step in (cluster.start, cluster.wakes, cluster.looks, cluster.reports, cluster.texts, cluster.joins, cluster.dies):
        step()
    print(f"{count:9,} the longest letter has {cluster.mail.longest:,} bytes", flush=True)
    for silo in cluster.silos:
        silo.end()


if __name__ == "__main__":
    activations(sys.argv[1], int(sys.argv[2]))
