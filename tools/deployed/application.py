"""The application at each silo: random commands, and what it makes of the answers."""

from collections import defaultdict

COMMANDS = (("wake", 50), ("find", 12), ("close", 9), ("offer", 9), ("cancel", 4), ("forget", 6))
CROWDED = 260
WANTED = 12
HOME = 2**32 // 64 * 21


class Application:
    """Grains that everybody wants, and a crowd of others, most of them hashed into one small range."""

    def __init__(self, random, counts, works, silos):
        self.random = random
        self.counts = counts
        self.works = works
        self.silos = silos
        self.wanted = [f"user/w{number}#{random.randrange(2**32)}" for number in range(WANTED)]
        self.crowd = [f"user/c{number}#{self.place_of(number)}" for number in range(CROWDED)]
        self.found = {}
        self.asking = defaultdict(list)
        self.works_on_closing = False

    def place_of(self, number):
        """Where a grain of the crowd is."""
        return HOME + self.random.randrange(2**20) if number % 4 else self.random.randrange(2**32)

    def grains(self):
        """All grains."""
        return self.wanted + self.crowd

    def act(self):
        """Asks some silo for something."""
        silos = [silo for silo in self.silos.values() if not silo.frozen and silo.known]
        if silos:
            silo = self.random.choice(silos)
            kinds, chances = zip(*COMMANDS)
            self.ask(silo, self.random.choices(kinds, chances)[0])

    def rush(self):
        """Wakes most of the crowd."""
        for grain in self.random.sample(self.crowd, CROWDED * 3 // 4):
            self.random.choice(list(self.silos.values())).write(f"wake {grain}")

    def ask(self, silo, kind):
        """Asks a silo for something of this kind."""
        if kind in ("close", "offer"):
            worked = self.works.of(silo.name)
            if worked:
                self.give_up(silo, kind, self.random.choice(worked))
        elif kind == "cancel":
            if self.asking[silo.name]:
                silo.write(f"cancel {self.random.choice(self.asking[silo.name])}")
        else:
            silo.write(f"{kind} {self.random.choice(self.wanted if self.random.random() < 0.4 else self.crowd)}")

    def give_up(self, silo, kind, grain):
        """Closes or offers an activation: its work ends before the line is written."""
        line = f"close {grain}" if kind == "close" else f"offer {grain} {self.random.choice(list(self.silos))}"
        if not self.works_on_closing:
            self.works.end(silo.name, grain)
        silo.write(line)

    def answered(self, silo, asked, line):
        """Takes an answer; of a refused close or offer the work goes on."""
        words = asked.split()
        said = line.split()
        self.follow(silo.name, said)
        if said[0] == "firm":
            if not silo.ended:
                self.works.begin(silo.name, said[2], said[1], int(said[4]))
        elif said[0] == "ended" and self.works_on_closing:
            self.works.end(silo.name, said[2])
        elif said[0] in ("found", "nothing"):
            self.found[silo.name, said[-1]] = said[1] if said[0] == "found" else None
        elif said[0] in ("owner", "place"):
            self.found[silo.name, said[1], said[0]] = said[2:]
        elif words[0] in ("close", "offer") and said[0] == "refused" and not self.works_on_closing:
            self.go_on(silo, words[1])

    def follow(self, name, said):
        """Keeps which activations of a silo ask, and may be given up."""
        if said[0] == "started":
            self.asking[name].append(said[2])
        elif said[0] in ("firm", "taken", "cancelled"):
            grain = said[1] if said[0] == "taken" else said[2]
            if grain in self.asking[name]:
                self.asking[name].remove(grain)

    def go_on(self, silo, grain):
        """What was refused leaves all as it was."""
        before = next(work for work in reversed(self.works.all) if work.grain == grain and work.activation.startswith(silo.name + "!"))
        self.works.begin(silo.name, grain, before.activation, before.token)
