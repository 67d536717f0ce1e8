"""The life of an endpoint: silos start there, are killed, frozen, or leave, are declared dead, and start again with a higher generation."""

import asyncio

from deployed.application import HOME
from deployed.broker import put
from deployed.silo import Silo

ACTS = (("killed", 30), ("killed and replaced", 15), ("frozen", 20), ("frozen and fenced", 20), ("told first", 10), ("left", 15))
PLACES = 64


class Life:
    """What happens at one endpoint, turn after turn."""

    def __init__(self, team, number):
        self.team = team
        self.random = team.random
        self.endpoint = f"127.0.0.1:{7000 + number}"
        self.generation = 0
        self.silo = None

    async def live(self):
        """Trouble after trouble, each with leave to make it."""
        async with self.team.leave:
            await self.start()
        while True:
            await asyncio.sleep(self.random.uniform(4, 24))
            async with self.team.leave:
                await self.suffer()
                if self.silo is None:
                    await self.pause(0, 2)
                    await self.start()

    async def start(self):
        """The next silo of the endpoint: that it joins is decided before its process is started, or after that."""
        self.generation += 1
        self.silo = self.silo_with(self.token())
        is_decided = self.random.random() < 0.5
        if is_decided:
            await self.decide_join()
        await self.begin(self.silo)
        if not is_decided:
            await self.decide_join()
        self.team.counts["processes", f"started, {'after' if is_decided else 'before'} the join was decided"] += 1

    def token(self):
        """A token that no other process has."""
        return f"{self.random.randrange(2**64):x}"

    def silo_with(self, token):
        """The silo that is next here, or is there, by a process that has the token."""
        return Silo(f"{self.endpoint}@{self.generation}", token, self.team)

    async def decide_join(self):
        """Decides that the silo joins, by the process that has the token."""
        async with self.team.deciding:
            self.team.decide("joined", self.silo.name, f"token={self.silo.token}", *self.places())
            self.silo.joined = self.team.changes.version()

    async def begin(self, silo):
        """Starts a process, and tells it all that was decided."""
        await self.team.start(silo)
        for line in self.team.changes.lines:
            put(silo.way, line)

    def places(self):
        """Some places on the circle; half of the silos get one just before the range where most of the crowd is."""
        places = {HOME - self.random.randrange(2**26)} if self.random.random() < 0.5 else set()
        places.update(place * (2**32 // PLACES) for place in self.random.sample(range(PLACES), self.random.randint(1, 3)))
        return sorted(places)

    async def suffer(self):
        """One trouble."""
        kinds, chances = zip(*ACTS)
        kind = self.random.choices(kinds, chances)[0]
        if self.team.is_unfenced and kind != "left":
            kind = "frozen, declared dead, and let go on"
        if self.is_to_begin_anew() and kind.startswith("killed"):
            kind = "killed"
        if self.team.plant.name == "goes-on" and kind.startswith("killed"):
            kind = "declared dead, and not told"
        self.team.counts["processes", kind] += 1
        await self.troubles()[kind]()

    def troubles(self):
        """What is done, by its name."""
        return {
            "killed": self.kill, "killed and replaced": self.replace, "frozen": self.freeze, "frozen and fenced": self.fence,
            "told first": self.tell_first, "left": self.depart, "frozen, declared dead, and let go on": self.leave_unfenced,
            "declared dead, and not told": self.disown,
        }

    async def kill(self):
        """Killed, and declared dead once it has ended; perhaps another process begins meanwhile as the same silo."""
        await self.silo.kill()
        await self.pause(0, 2)
        if self.random.random() < 0.3 or self.is_to_begin_anew():
            await self.begin_anew()
        await self.bury()

    async def begin_anew(self):
        """A process begins as a silo that has joined by another one: it takes no join for its own, and writes no letter."""
        self.team.counts["processes", "begun as a silo that had joined already"] += 1
        anew = self.silo_with(self.silo.token if self.is_to_begin_anew() else self.token())
        anew.disowned = True
        await self.begin(anew)
        await self.pause(1, 3)
        await anew.kill()
        if anew.known >= self.silo.joined or anew.has_written:
            self.team.fault(f"{anew.name} joins twice")

    def is_to_begin_anew(self):
        """Whether it is to be found that a process begins with the token of the one before."""
        return self.team.plant.name == "begins-anew"

    async def replace(self):
        """Killed; the next generation's joining makes it dead."""
        await self.silo.kill()
        self.silo = None

    async def freeze(self):
        """Stopped for a while; nobody declares it dead."""
        self.silo.freeze()
        await self.pause(1, 6)
        self.silo.thaw()

    async def fence(self):
        """Stopped; before it is declared dead, it is made sure that it never goes on."""
        self.silo.freeze()
        await self.pause(1, 4)
        await self.silo.kill()
        await self.bury()

    async def leave_unfenced(self):
        """Stopped, declared dead, and let go on later."""
        self.silo.freeze()
        await self.pause(0, 1)
        await self.declare_dead()
        await self.pause(6, 10)
        self.silo.thaw()
        await self.pause(2, 3)
        await self.silo.kill()
        self.silo = None

    async def disown(self):
        """Declared dead and not told of it, and its process isn't stopped."""
        self.silo.disowned = True
        await self.declare_dead()
        await self.pause(6, 9)
        await self.silo.kill()
        self.silo = None

    async def tell_first(self):
        """Told of its own death before anybody else: its process ends by itself."""
        async with self.team.deciding:
            for line in self.team.changes.lines:
                put(self.silo.way, line)
            put(self.silo.way, f"dead {self.team.changes.version() + 1} {self.silo.name}")
            self.silo.doomed = True
            await asyncio.wait_for(self.silo.wait_for_end(), 30)
            self.team.decide("dead", self.silo.name)
        self.silo = None

    async def depart(self):
        """Leaves, goes on for a while, and is stopped."""
        async with self.team.deciding:
            self.team.decide("leaving", self.silo.name)
        await self.pause(3, 7)
        await self.kill()

    async def bury(self):
        """Declared dead after its process has ended."""
        await self.declare_dead()
        self.silo = None

    async def declare_dead(self):
        """Decides the silo's death."""
        self.silo.doomed = True
        async with self.team.deciding:
            self.team.decide("dead", self.silo.name)

    async def pause(self, shortest, longest):
        """Lets some seconds pass."""
        await asyncio.sleep(self.random.uniform(shortest, longest))
