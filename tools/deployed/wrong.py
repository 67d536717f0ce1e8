"""Faults that are planted, to see that they are found."""

FAULTS = {
    "confirms": "a process confirms a registration by itself: `registered` is made up, and the owner never asked",
    "goes-on": "a process goes on after its death was decided, and isn't told of it",
    "begins-anew": "a process begins as a silo that has joined already, with the token of that join",
    "invents": "the transport invents a letter: a `deregister` of an activation that works",
    "alters": "the transport changes a letter: a report loses its entries",
    "works-on": "the application works on until its close is answered",
    "denies": "the transport has `behind` in the place of each report and each `empty`: nothing wrong comes of it, but no range is recovered",
    "hurries": "a silo is nudged before its requests are answered: nothing wrong comes of it, but no answer counts",
}
REQUESTS = ("register", "deregister", "find")
ANSWERS = ("registered", "taken", "removed", "absent", "found", "nothing")
# how a report ends what its silo tells, for now or for good
ENDS = ("more", "last")


class Plant:
    """A planted fault, or none where it has no name."""

    def __init__(self, name, random, counts, works, relay):
        self.name = name
        self.random = random
        self.counts = counts
        self.works = works
        self.relay = relay
        self.numbers = {}
        self.hurried = {}

    def spread(self, silo, line):
        """Sends the letters that come of one that a process wrote."""
        words = line.split()
        if words[4] in REQUESTS:
            self.numbers[silo.name] = max(self.numbers.get(silo.name, 0), int(words[5]))
        if self.name == "confirms" and words[4] == "register" and self.random.random() < 0.1:
            self.counts["planted", self.name] += 1
            line = " ".join(["letter", words[2], words[1], words[3], "registered", *words[5:8]])
        elif self.name == "alters" and words[4] == "report" and words[-1] not in ENDS:
            self.counts["planted", self.name] += 1
            end = next(index for index, word in enumerate(words) if word in ENDS)
            line = " ".join([*words[:end], "last"])
        elif self.name == "denies" and words[4] in ("report", "empty"):
            self.counts["planted", self.name] += 1
            line = " ".join([*words[:4], "behind", words[5]])
        elif self.name == "hurries" and words[4] in ANSWERS:
            self.hurry(words[2], int(words[5]))
        self.relay.send(line)

    def hurry(self, name, number):
        """Nudges a silo whose request is answered, unless that had a number from before the last such nudge."""
        if name in self.relay.silos and number > self.hurried.get(name, 0):
            self.counts["planted", self.name] += 1
            self.hurried[name] = self.numbers.get(name, 0)
            self.relay.silos[name].nudge()

    def invent(self):
        """Invents a letter from time to time, in the name of a silo that has an activation at work."""
        going = list(self.works.going.items())
        if self.name != "invents" or not going or self.random.random() > 0.1:
            return
        (name, grain), work = self.random.choice(going)
        if name in self.relay.silos:
            self.counts["planted", self.name] += 1
            self.numbers[name] = number = self.numbers.get(name, 0) + 1
            for receiver in self.relay.silos:
                seen = self.relay.silos[name].seen
                self.relay.send(f"letter {name} {receiver} {seen} deregister {number} {grain} {work.activation}")
