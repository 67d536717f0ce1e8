"""The broker, and its clients: mosquitto, mosquitto_pub and mosquitto_sub, on this machine alone."""

import asyncio
import socket
from asyncio.subprocess import DEVNULL, PIPE
from pathlib import Path

MOSQUITTO = Path(__file__).resolve().parent.parent.parent / "examples" / "cluster" / "broker"
MEMBERSHIP = "membership"
LONGEST = 2**25


class NoBroker(Exception):
    """The broker can't be had."""


class Broker:
    """A mosquitto with a port of its own, and the clients that were started."""

    def __init__(self, folder):
        self.folder = folder
        self.port = free_port()
        self.started = []

    async def start(self):
        """Starts mosquitto, and waits until it listens."""
        await self.run(MOSQUITTO, self.folder, str(self.port))
        for _ in range(50):
            try:
                _, writer = await asyncio.open_connection("127.0.0.1", self.port)
                writer.close()
                return
            except OSError:
                await asyncio.sleep(0.1)
        raise NoBroker("mosquitto doesn't listen; it comes with Debian's packages mosquitto and mosquitto-clients")

    async def way_to(self, topic):
        """A client whose every line becomes a message to a topic."""
        return await self.client("mosquitto_pub", "-q", "2", "-t", topic, "-l")

    async def feed_of(self, silo):
        """A client that prints a silo's own lines and those of membership, in a session that stays."""
        return await self.client("mosquitto_sub", "-q", "2", "-c", "-i", silo, "-t", topic_of(silo), "-t", MEMBERSHIP)

    async def client(self, name, *words):
        """A client of the broker."""
        return await self.run(name, "-h", "127.0.0.1", "-p", str(self.port), *words)

    async def run(self, *words):
        """Starts a program that ends with the broker."""
        process = await asyncio.create_subprocess_exec(*words, stdin=PIPE, stdout=PIPE, stderr=DEVNULL, limit=LONGEST)
        self.started.append(process)
        return process

    async def end(self, process):
        """Ends a program that this one started."""
        if process.returncode is None:
            process.kill()
        await process.wait()
        self.started.remove(process)

    async def stop(self):
        """Ends all that was started."""
        for process in reversed(list(self.started)):
            await self.end(process)


def topic_of(silo):
    """A silo's own topic."""
    return f"silo/{silo}"


def free_port():
    """A port that nobody has."""
    with socket.socket() as taken:
        taken.bind(("127.0.0.1", 0))
        return taken.getsockname()[1]


def put(process, line):
    """Writes a line to a program that was started."""
    process.stdin.write(f"{line}\n".encode())
