"""Network namespaces on this machine, each with an address on one bridge, and cuts between them. Needs root, and `ip`."""

import os
from subprocess import DEVNULL, run


def ip(*words, check=True):
    return run(["ip", *words], check=check, stdout=DEVNULL, stderr=None if check else DEVNULL).returncode


class Network:
    """Namespaces by name, in a subnet that is drawn by this process's number."""

    def __init__(self):
        self.prefix = f"gp{os.getpid() % 100000}"
        self.subnet = f"10.{200 + os.getpid() % 50}.{os.getpid() % 250}"
        self.hosts = {}
        self.cuts = []
        self.hub = self.prefix + "hub"
        ip("netns", "add", self.hub)
        ip("-n", self.hub, "link", "set", "lo", "up")
        ip("-n", self.hub, "link", "add", "br0", "type", "bridge")
        ip("-n", self.hub, "link", "set", "br0", "up")

    def add(self, name):
        """A namespace with an address of its own, which is answered."""
        space, address = self.prefix + name, f"{self.subnet}.{len(self.hosts) + 1}"
        ip("netns", "add", space)
        ip("-n", space, "link", "set", "lo", "up")
        ip("link", "add", f"v{name}", "netns", self.hub, "type", "veth", "peer", "name", "eth0", "netns", space)
        ip("-n", self.hub, "link", "set", f"v{name}", "master", "br0", "up")
        ip("-n", space, "addr", "add", f"{address}/24", "dev", "eth0")
        ip("-n", space, "link", "set", "eth0", "up")
        self.hosts[name] = address
        return address

    def inside(self, name):
        """The words in front of a program that runs there."""
        return ["ip", "netns", "exec", self.prefix + name]

    def cut(self, sender, receiver):
        """What the sender sends to the receiver doesn't arrive."""
        where, what = self.prefix + sender, f"{self.hosts[receiver]}/32"
        if ip("-n", where, "route", "add", "blackhole", what, check=False) == 0:
            self.cuts.append((where, what))

    def part(self, one, others):
        """Nothing passes between one and the others, either way."""
        for other in others:
            self.cut(one, other)
            self.cut(other, one)

    def heal(self):
        """Everything passes again."""
        for where, what in self.cuts:
            ip("-n", where, "route", "del", "blackhole", what, check=False)
        self.cuts = []

    def remove(self):
        for name in self.hosts:
            ip("netns", "del", self.prefix + name, check=False)
        ip("netns", "del", self.hub, check=False)
