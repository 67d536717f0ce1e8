"""Five endpoints over one broker, in trouble; and from time to time quiet, in which all is judged."""

import asyncio
from collections import Counter
from time import monotonic

from deployed.application import Application
from deployed.broker import MEMBERSHIP, Broker, put
from deployed.changes import Changes, address_of, endpoint_of
from deployed.lives import Life
from deployed.relay import CALM, WEATHERS, Relay
from deployed.silo import CHANGES, PING
from deployed.works import Works
from deployed.wrong import Plant

ENDPOINTS = 5
AT_ONCE = 2
OPTIONS = ("--hashing", "stated", "--points", "4", "--cache", "16")
COMMANDS_A_SECOND = 40
QUESTIONS = ("dump", "status")
REASONS = {"601": "another view", "602": "not settled", "603": "an old number", "604": "no such range"}


class Team:
    """The whole deployment, and what is known of it from outside."""

    def __init__(self, random, program, folder, report_size, is_unfenced, fault):
        self.random = random
        self.program = program
        self.options = (*OPTIONS, "--report-size", str(report_size))
        self.is_unfenced = is_unfenced
        self.counts = Counter()
        self.faults = []
        self.broker = Broker(folder)
        self.changes = Changes()
        self.works = Works()
        self.relay = Relay(random, self.counts)
        self.plant = Plant(fault, random, self.counts, self.works, self.relay)
        self.application = Application(random, self.counts, self.works, self.relay.silos)
        self.application.works_on_closing = fault == "works-on"
        self.leave = asyncio.Semaphore(AT_ONCE)
        self.deciding = asyncio.Lock()
        self.is_calm = False
        self.answers = {}
        self.begun = monotonic()

    async def open(self, spawn):
        """Starts all that goes on by itself, once there is the broker; `spawn` starts a task."""
        self.spawn = spawn
        self.membership = await self.broker.way_to(MEMBERSHIP)
        for number in range(1, ENDPOINTS + 1):
            spawn(Life(self, number).live())
        spawn(self.command())
        spawn(self.nudge())
        spawn(self.change_weather())

    async def start(self, silo):
        """Starts a silo's process, and waits until it hears."""
        await silo.start(self.program, self.options, self.broker, self.spawn)
        self.relay.add(silo)
        if not await silo.hears():
            raise RuntimeError(f"{silo.name} gets nothing from the broker")
        self.spawn(self.look(silo))

    def decide(self, kind, silo, *places):
        """Decides a change of membership, and tells everybody."""
        put(self.membership, self.changes.decide(kind, silo, *places))
        self.counts["views", "changes decided"] += 1

    async def command(self):
        """The applications ask for things."""
        while True:
            await asyncio.sleep(self.random.expovariate(COMMANDS_A_SECOND))
            if not self.is_calm:
                self.application.act()
                self.plant.invent()

    async def nudge(self):
        """Silos are nudged when it is time, of what it is time for."""
        while True:
            await asyncio.sleep(0.1)
            for silo in self.relay.silos.values():
                if not self.is_calm and not silo.frozen:
                    silo.nudge_slow()

    async def change_weather(self):
        """The weather changes every few seconds."""
        while True:
            await asyncio.sleep(self.random.uniform(2, 8))
            if not self.is_calm:
                self.relay.become(self.random.choice(WEATHERS))

    async def look(self, silo):
        """A silo sees the next view, or skips some, when it comes to it; some look rarely."""
        patience = self.random.choice((0.15, 0.3, 2))
        while not silo.ended:
            await asyncio.sleep(self.random.expovariate(1 / patience))
            if not self.is_calm and not silo.frozen and silo.known > silo.seen and silo.known >= silo.joined > 0:
                first = max(silo.seen + 1, silo.joined)
                versions = [first] * 2 + [silo.known, self.random.randint(first, max(first, silo.known))]
                silo.write(f"see {self.random.choice(versions)}")

    def catch_up(self, silo, asked, line):
        """A silo that refused a change by 206, since those before it came later, is told again what it doesn't know."""
        if line == "refused 206":
            silo.early = max(silo.early, int(asked.split()[1]))
        if silo.early > silo.known and not silo.untold and not silo.disowned:
            for change in self.changes.lines[silo.known:]:
                self.relay.tell(silo, change)

    def letter_written(self, silo, line):
        """A process wrote a letter."""
        self.plant.spread(silo, line)

    def letter_came(self, silo, line):
        """The broker has a letter for a silo."""
        if not silo.ended:
            self.relay.come(silo, line)

    def change_came(self, silo, line):
        """The broker has a change of membership for a silo."""
        if not silo.ended and not (silo.disowned and self.is_death_of(silo, line)):
            self.relay.tell(silo, line)

    def is_death_of(self, silo, line):
        """Whether a silo becomes dead by a change."""
        kind, _, name, *_ = line.split()
        is_later = endpoint_of(name) == endpoint_of(silo.name) and address_of(name) > address_of(silo.name)
        return kind == "joined" and is_later or kind == "dead" and name == silo.name

    def answered(self, silo, asked, line):
        """A process answered a line."""
        if asked in QUESTIONS:
            self.answers[silo.name] = line
        if asked in (*QUESTIONS, PING):
            return
        self.count_answer(asked.split(), line.split())
        self.application.answered(silo, asked, line)
        if asked.split()[0] in CHANGES:
            self.catch_up(silo, asked, line)
        if line.startswith("fault"):
            self.fault(f"{silo.name} says `{line}` to `{asked}`")

    def count_answer(self, asked, said):
        """Counts what came of a line."""
        if asked[0] == "see" and said[1:2] == ["sees"]:
            self.counts["views", "seen, the next one" if said[3] == "next" else "seen, others skipped"] += 1
        elif said[0] == "refused":
            self.counts["refusals", f"{asked[0] if asked[0] not in CHANGES else 'a change'}, {said[1]}"] += 1
        elif said[0] == "delivered":
            self.counts["answers", self.words_of(said)] += 1
        elif asked[0] == "letter":
            self.counts["answers", f"ended, {said[3]}" if said[0] == "ended" else said[0]] += 1
        elif asked[0] in CHANGES:
            self.counts["views", "changes told" if said[0] == "view" else "changes that were known"] += 1
        else:
            self.counts["answers to commands", " ".join(said[:2]) if said[0] == "nothing" else said[0]] += 1

    def words_of(self, said):
        """What came of a letter that doesn't concern the application, in words."""
        return " ".join(said[1:3]) + (f" {said[-1]}, {REASONS.get(said[-1], 'refused')}" if len(said) > 3 else "")

    def process_ended(self, silo):
        """A process has ended, and with it all that worked there."""
        self.works.end_all(silo.name)
        self.relay.remove(silo)
        if not silo.doomed:
            self.fault(f"the process of {silo.name} ended by itself, with status {silo.process.returncode}")

    def fault(self, words):
        """Keeps a fault that was found, with the second of the run."""
        self.faults.append(f"{monotonic() - self.begun:.0f} s: {words}")

    async def be_quiet(self):
        """Ends the troubles for a while: nobody is frozen, all letters and changes come."""
        for _ in range(AT_ONCE):
            await self.leave.acquire()
        self.is_calm = True
        self.relay.become(CALM)

    def be_unquiet(self):
        """Troubles may come again."""
        self.is_calm = False
        self.relay.become(self.random.choice(WEATHERS))
        for _ in range(AT_ONCE):
            self.leave.release()
