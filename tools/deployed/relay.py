"""What becomes of letters between the broker and the processes: they are lost, come again, late, in another order, or to another silo."""

import asyncio
from collections import deque
from dataclasses import dataclass

from deployed.broker import put
from deployed.changes import endpoint_of


@dataclass(frozen=True)
class Weather:
    """How often what becomes of a letter, of 1, and how late it comes, in seconds at most."""
    name: str
    lost: float
    again: float
    late: float
    longest: float
    astray: float


CALM = Weather("calm", 0, 0, 0, 0, 0)
WEATHERS = (Weather("fair", 0.01, 0.03, 0.3, 0.1, 0), Weather("gale", 0.05, 0.1, 0.6, 0.6, 0.01), Weather("fog", 0.25, 0.2, 0.4, 4, 0.02))
LATEST_CHANGE = 1.5


class Relay:
    """All letters that are on their way."""

    def __init__(self, random, counts):
        self.random = random
        self.counts = counts
        self.weather = WEATHERS[0]
        self.silos = {}
        self.at_broker = {}
        self.waiting = {}
        self.past = deque(maxlen=3000)
        self.written = 0
        self.arrived = 0

    def send(self, line):
        """Sends a letter that a process wrote to the topic of its receiver."""
        self.written += 1
        silo = self.silos.get(line.split(maxsplit=3)[2])
        if not silo:
            self.counts["letters", "to a silo without a process"] += 1
            return
        self.at_broker[silo.name] += 1
        put(silo.way, line)

    def come(self, silo, line):
        """A letter came from the broker: it is lost, or it waits for its time."""
        self.at_broker[silo.name] -= 1
        self.arrived += 1
        self.past.append(line)
        if self.happens(self.weather.lost):
            self.counts["letters", "lost"] += 1
            return
        self.keep(silo, line, self.delay())
        if self.happens(self.weather.again):
            self.counts["letters", "again"] += 1
            self.keep(silo, line, self.delay())
            self.repeat_old()

    def repeat_old(self):
        """A letter of long ago comes again, to whoever has its receiver's endpoint now."""
        line = self.random.choice(self.past)
        receiver = line.split(maxsplit=3)[2]
        for silo in self.silos.values():
            if endpoint_of(silo.name) == endpoint_of(receiver):
                self.counts["letters", "again, long after" if silo.name == receiver else "to a later generation"] += 1
                silo.write(line)

    def delay(self):
        """How late a letter comes."""
        if not self.happens(self.weather.late):
            return 0
        self.counts["letters", "late"] += 1
        return self.random.uniform(0, self.weather.longest)

    def keep(self, silo, line, delay):
        """Keeps a letter until its time, and counts it as overtaken if one that arrived later has come before it."""
        number = self.arrived
        if delay == 0:
            self.hand_over(silo, line, number)
            return
        key = object()
        handle = asyncio.get_running_loop().call_later(delay, self.release, key)
        self.waiting[key] = (handle, silo, line, number)

    def release(self, key):
        """The time of a letter has come."""
        _, silo, line, number = self.waiting.pop(key)
        self.hand_over(silo, line, number)

    def hand_over(self, silo, line, number):
        """Gives a letter to the process, or to another one, which passes over it."""
        self.counts["letters", "handed over"] += 1
        if number < silo.newest:
            self.counts["letters", "overtaken"] += 1
        silo.newest = max(silo.newest, number)
        silo.write(line)
        if self.happens(self.weather.astray):
            self.counts["letters", "to another silo too"] += 1
            self.random.choice(list(self.silos.values())).write(line)

    def tell(self, silo, line):
        """A change came from the broker: the process is told of it after all before it, sooner or later; perhaps of an old one again."""
        silo.untold.append(line)
        delay = 0 if self.weather is CALM else self.random.uniform(0, LATEST_CHANGE)
        asyncio.get_running_loop().call_later(delay, silo.tell_next)
        if self.weather is not CALM and silo.told and self.happens(0.1):
            self.counts["views", "changes told again"] += 1
            silo.write(self.random.choice(silo.told))

    def become(self, weather):
        """The weather changes; when it becomes calm, all that waits comes."""
        self.weather = weather
        if weather is CALM:
            for handle, silo, line, number in list(self.waiting.values()):
                handle.cancel()
                self.hand_over(silo, line, number)
            self.waiting.clear()
            for silo in self.silos.values():
                while silo.untold:
                    silo.tell_next()

    def add(self, silo):
        """A silo has its process."""
        self.silos[silo.name] = silo
        self.at_broker[silo.name] = 0

    def remove(self, silo):
        """A silo's process has ended."""
        self.silos.pop(silo.name, None)
        self.at_broker.pop(silo.name, None)

    def is_still(self):
        """Whether nothing is on its way: at the broker, here, or unanswered."""
        return not self.waiting and not any(self.at_broker.values()) and not any(silo.untold or silo.asked for silo in self.silos.values())

    def happens(self, chance):
        """Whether something of this chance happens."""
        return self.random.random() < chance
