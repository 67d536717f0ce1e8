"""A silo as a process: lines in, answers and letters out."""

import asyncio
import os
import signal
from collections import deque

from deployed.broker import put, topic_of
from deployed.patience import Patience

CHANGES = ("joined", "leaving", "dead")
PING = "ping still"


class Silo:
    """A silo's process with its feed, and the lines that it has still to answer. A listener is told of letters, answers and its end. The
    process joins by the line that carries its token, and by no other."""

    def __init__(self, name, token, listener):
        self.name = name
        self.token = token
        self.listener = listener
        self.asked = deque()
        self.untold = deque()
        self.told = []
        self.known = self.seen = self.joined = self.newest = self.early = 0
        self.frozen = self.ended = self.doomed = self.disowned = self.has_written = False
        self.listening = asyncio.Event()
        self.patience = Patience()

    async def start(self, program, options, broker, spawn):
        """Starts the process, its feed, and the tasks that read what they write."""
        self.process = await broker.run(program, "silo", self.name, "--join", self.token, *options)
        self.feed = await broker.feed_of(self.name)
        self.way = await broker.way_to(topic_of(self.name))
        self.broker = broker
        self.tasks = [spawn(task) for task in (self.read_process(), self.read_feed(), self.watch())]

    def write(self, line):
        """Gives the process a line; it answers each, but remarks and letters to others."""
        words = line.split()
        if self.ended or self.process.stdin.is_closing():
            return
        if words[0] != ";" and (words[0] != "letter" or words[2] == self.name):
            self.asked.append(line)
        put(self.process, line)

    async def read_process(self):
        """Reads what the process writes; a line that was cut, since the process was killed, isn't taken."""
        async for data in self.process.stdout:
            line = data.decode()
            if not line.endswith("\n"):
                return
            line = line[:-1]
            if line.startswith("letter "):
                self.has_written = True
                self.patience.wrote(line)
                self.listener.letter_written(self, line)
            elif line != "dead":
                self.take_answer(self.asked.popleft(), line)

    def take_answer(self, asked, line):
        """Takes the answer to the first line that waits for one."""
        words = line.split()
        self.patience.answered(asked, words)
        if words[0] == "view":
            self.known = int(words[1])
        elif words[1:2] == ["sees"]:
            self.seen = int(words[2])
        self.listener.answered(self, asked, line)

    async def read_feed(self):
        """Reads what the broker has for the silo."""
        async for data in self.feed.stdout:
            line = data.decode().rstrip("\n")
            if line.startswith(";"):
                self.listening.set()
            elif line.startswith("letter "):
                self.listener.letter_came(self, line)
            elif line:
                self.listener.change_came(self, line)

    async def watch(self):
        """Waits for the end of the process."""
        await self.process.wait()
        self.ended = True
        self.listener.process_ended(self)

    async def hears(self):
        """Waits until the feed has what is sent to the silo; whether it has in ten seconds."""
        for _ in range(100):
            put(self.way, "; are you there")
            try:
                await asyncio.wait_for(self.listening.wait(), 0.1)
                return True
            except asyncio.TimeoutError:
                pass
        return False

    def nudge(self):
        """Has the process send again all that it waits for."""
        self.write("nudge")
        self.patience.nudged(list(self.patience.waits))

    def nudge_slow(self):
        """Has the process send again what it has waited for long enough: of these grains, or of its ranges, and nothing else."""
        for word in self.patience.over():
            self.write(f"nudge {word}")
            self.patience.nudged([word])

    def tell_next(self):
        """Tells the process the next change, if there is one that it wasn't told; so they are told in order."""
        if self.untold:
            self.told.append(self.untold.popleft())
            self.write(self.told[-1])

    def freeze(self):
        """Stops the process, which may go on later."""
        self.frozen = True
        os.kill(self.process.pid, signal.SIGSTOP)

    def thaw(self):
        """Lets the process go on."""
        self.frozen = False
        if not self.ended:
            os.kill(self.process.pid, signal.SIGCONT)

    async def kill(self):
        """Ends the process by kill -9, and waits until it has surely ended."""
        self.doomed = True
        if not self.ended:
            try:
                self.process.kill()
            except ProcessLookupError:
                pass
        await self.wait_for_end()

    async def wait_for_end(self):
        """Waits until the process has ended and all that it wrote was read; then ends its feed."""
        await asyncio.gather(self.tasks[0], self.tasks[2])
        self.asked.clear()
        self.untold.clear()
        for process in (self.process, self.feed, self.way):
            await self.broker.end(process)
