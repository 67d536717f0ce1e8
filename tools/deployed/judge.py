"""What is tested at quiet ends, by plain means: once all have seen the last view, and twice all were nudged and all letters came, nothing
is outstanding, ranges are settled, what is firm is what works, the entries are just that, each at its owner, and look-ups find it; the
dump that is put together is judged by the program as well."""

import asyncio
import json
from asyncio.subprocess import DEVNULL, PIPE
from collections import Counter
from pathlib import Path

from deployed.changes import whole_dump
from deployed.silo import PING
from deployed.works import FOR_EVER

TOP = Path(__file__).resolve().parent.parent.parent
ROUNDS = ("first", "second")
SECONDS_TO_COME = 20
LOOK_UPS = 40


class Judge:
    """Judges a team when it is quiet."""

    def __init__(self, team):
        self.team = team
        self.can_check = False
        self.told = set()

    async def prepare(self):
        """Finds out whether the program has `check`."""
        self.can_check = await self.check((TOP / "examples" / "right-dump.json").read_text()) == "check ok"
        return self.can_check

    async def judge(self):
        """One quiet end."""
        if await self.come_back():
            nodes = [json.loads(line) for line in (await self.ask_all("dump")).values()]
            self.compare(nodes)
            await self.compare_figures(nodes)
            if self.can_check:
                dump = json.dumps(whole_dump(self.team.changes, nodes, "stated", 4), separators=(",", ":"))
                self.expect(await self.check(dump), "check ok", "what `check` says of the dump")
            await self.nudge_in_vain()
            await self.look_up()
            self.team.application.rush()
            await self.be_still()
            self.team.counts["quiet ends", "judged"] += 1
        for first, second in self.team.works.overlaps():
            self.tell("two works of one grain overlap", first, second, time_of(first, second))
        for first, second in self.team.works.falls():
            self.tell("a token falls", first, second, f"with the tokens {first.token} and {second.token}")

    def tell(self, what, first, second, how):
        """Tells two works of one grain that shouldn't be so, each once."""
        pair = (what, first.grain, first.activation, second.activation)
        if pair not in self.told:
            self.told.add(pair)
            self.team.counts["found", what] += 1
            self.team.fault(f"{first.grain} works as {first.activation} and as {second.activation}, {how}")

    async def come_back(self):
        """All see the last view; then, twice, all are nudged and all letters come. Whether letters ever stop coming."""
        if not await self.see_last():
            return False
        for name in ROUNDS:
            written = self.team.relay.written
            if not await self.nudge_all():
                return False
            self.team.counts["quiet ends", f"{name} rounds, letters"] += self.team.relay.written - written
        return True

    async def see_last(self):
        """All know all changes, and see the last view; whether that comes."""
        version = self.team.changes.version()
        if not await self.comes(self.all_are("known", version), "not all know the last change"):
            return False
        for silo in self.silos():
            if silo.seen < version:
                silo.write(f"see {version}")
        return await self.comes(self.all_are("seen", version), "not all see the last view")

    def all_are(self, name, version):
        """A test whether all silos have come to a version."""
        async def is_so():
            return all(getattr(silo, name) == version for silo in self.silos())
        return is_so

    async def nudge_all(self):
        """All are nudged, before any letter of that comes; then all letters come. Whether these ever stop."""
        for silo in self.silos():
            silo.nudge()
        return await self.be_still()

    async def nudge_in_vain(self):
        """Once more all are nudged, and nobody has anything to send."""
        written = self.team.relay.written
        await self.nudge_all()
        self.expect(self.team.relay.written - written, 0, "letters that one more nudge sends")

    async def be_still(self):
        """Waits until nothing is on its way; whether that comes."""
        return await self.comes(self.is_still, "letters don't stop coming")

    async def is_still(self):
        """Whether nothing is on its way. A ping is answered behind the letters of the lines before it, so these are counted by then."""
        relay = self.team.relay
        before = relay.written, relay.arrived
        for silo in self.silos():
            silo.write(PING)
        while any(silo.asked for silo in self.silos()):
            await asyncio.sleep(0.005)
        return relay.is_still() and before == (relay.written, relay.arrived)

    async def comes(self, is_so, words):
        """Waits until something is so, and tells a fault where that takes too long; whether it comes."""
        try:
            async with asyncio.timeout(SECONDS_TO_COME):
                while not await is_so():
                    await asyncio.sleep(0.02)
                return True
        except TimeoutError:
            self.team.fault(f"{words} in {SECONDS_TO_COME} seconds")
            return False

    def silos(self):
        """The silos that have a process."""
        return list(self.team.relay.silos.values())

    async def ask_all(self, line):
        """What each silo answers to a line."""
        self.team.answers = {}
        for silo in self.silos():
            silo.write(line)
        await self.be_still()
        return self.team.answers

    def compare(self, nodes):
        """Compares what is firm, what is entered and where, and what works."""
        changes = self.team.changes
        self.expect([node["silo"] for node in nodes if node["seen"] != changes.version()], [], "silos that haven't seen the last view")
        pieces = [piece for node in nodes for piece in node["pieces"]]
        self.expect([piece["range"] for piece in pieces if piece["state"] != "settled"], [], "ranges not settled")
        held = [(one["grain"], one["activation"], one["phase"]) for node in nodes for one in node["held"]]
        self.expect([one for one in held if one[2] != "firm"], [], "what is asking or closing")
        firm = sorted(one[:2] for one in held if one[2] == "firm")
        twice = [grain for grain, count in Counter(grain for grain, _ in firm).items() if count > 1]
        self.expect(twice, [], "grains that are firm twice")
        works = sorted((work.grain, work.activation) for work in self.team.works.going.values())
        self.expect(works, firm, "what works, beside what is firm")
        entries = sorted(tuple(entry) for piece in pieces for entry in piece["entries"])
        self.expect(entries, firm, "what is entered, beside what is firm")
        entered = [(node["silo"], grain) for node in nodes for piece in node["pieces"] for grain, _ in piece["entries"]]
        self.expect([one for one in entered if one[0] != changes.owner(hash_of(one[1]))[0]], [], "entries that aren't at their owner")
        self.team.counts["quiet ends", "firm activations, in all"] += len(firm)

    async def compare_figures(self, nodes):
        """Compares each silo's figures with what it has: nothing waits any more. How many snapshots it keeps is left out."""
        version, told = self.team.changes.version(), await self.ask_all("status")
        for node in nodes:
            wanted = f"status {version} known {version} held {len(node['held'])} asking 0 closing 0 finding 0 unsettled 0 kept"
            self.expect(told.get(node["silo"], "no answer").rpartition(" ")[0], wanted, "a silo's figures", f"{node['silo']}, ")

    async def look_up(self):
        """Look-ups find what works, and nothing else."""
        grains, asked = self.team.random.sample(self.team.application.grains(), LOOK_UPS), []
        self.team.application.found.clear()
        for grain in grains:
            silo = self.team.random.choice(self.silos())
            silo.write(f"forget {grain}")
            silo.write(f"find {grain}")
            silo.write(f"owner {grain}")
            silo.write(f"place {grain} hash_based")
            asked.append((silo.name, grain))
        await self.be_still()
        for silo, grain in asked:
            found = self.team.application.found.get((silo, grain), "no answer")
            self.expect(found, self.team.works.activation_of(grain), "what a look-up finds", f"{grain} on {silo}, ")
            self.compare_owner(silo, grain)
        self.team.counts["quiet ends", "look-ups"] += LOOK_UPS

    def compare_owner(self, silo, grain):
        """Compares whom the grain's hash belongs to, and where it would be placed, by what the silo says."""
        found, changes = self.team.application.found, self.team.changes
        owner = [str(it) for it in changes.owner(hash_of(grain))]
        self.expect(found.get((silo, grain, "owner")), owner, "the owner", f"{grain} on {silo}, ")
        self.expect(found.get((silo, grain, "place")), [changes.place(hash_of(grain))], "the place", f"{grain} on {silo}, ")

    def expect(self, found, wanted, words, where=""):
        """Something is as it should be, or is a fault."""
        if found != wanted:
            self.team.counts["found", words] += 1
            self.team.fault(f"{words}: {where}{difference(found, wanted)}")

    async def check(self, dump):
        """What the program says of a dump."""
        process = await asyncio.create_subprocess_exec(self.team.program, "check", stdin=PIPE, stdout=PIPE, stderr=DEVNULL)
        told, _ = await process.communicate(dump.encode())
        return told.decode().strip()


def hash_of(grain):
    """The hash that a grain states."""
    return int(grain.rpartition("#")[2])


def difference(found, wanted):
    """What is told of two values that differ: of lists only what is in one of them."""
    if isinstance(found, list) and isinstance(wanted, list):
        more, less = [one for one in found if one not in wanted], [one for one in wanted if one not in found]
        return f"{len(more)} more {more[:3]}, {len(less)} fewer {less[:3]}"
    return f"{found}, and not {wanted}"


def time_of(first, second):
    """How long two works overlap, in words."""
    end = min(first.end, second.end)
    return "to the end" if end == FOR_EVER else f"for {(end - second.start) * 1000:.1f} ms"
