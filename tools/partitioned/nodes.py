"""Erlang nodes, each in the namespace of its agent, and the works of their processes, as they have stamped them."""

import os
import struct
from dataclasses import dataclass
from shutil import copytree, rmtree
from signal import SIGCONT
from subprocess import run
from time import time_ns

from partitioned.processes import Processes

# What is changed in the client where a fault is planted: a file, and what stands there instead of what.
FAULTS = {
    "no-kill": ("grain_fence.erl", "Pids = [Pid || {_, Pid, _} <- ets:tab2list(grain_names)],", "Pids = [],"),
    "no-deadline": ("grain_fence.erl", "case grain_clock:latest() < Until of", "case Until > 0 of"),
    "hangs-up-first": ("grain_fence.erl", "    kill(Pids),\n", "    Socket =:= none orelse gen_tcp:close(Socket),\n    timer:sleep(200),\n    kill(Pids),\n"),
    "early": ("grain_names.erl", "        {ok, Q1} -> watch(Grain,", "        {ok, Q1} -> ets:insert(grain_names, {Key, Pid, 0}), gen_server:reply(From, yes), watch(Grain,"),
}
# How long a process may work on when the machine or the node that stood still goes on: until the fence has looked at the clock.
WAKING_NS = 100_000_000


def build(client, folder, fault):
    """The client and what nodes do, compiled; with a fault, if one is named."""
    copytree(client / "src", folder / "src")
    if fault:
        name, before, behind = FAULTS[fault]
        text = (folder / "src" / name).read_text()
        if text.count(before) != 1:
            raise SystemExit(f"names-chaos: {fault} can't be planted: {name} has changed")
        (folder / "src" / name).write_text(text.replace(before, behind))
    (folder / "ebin").mkdir()
    run(["erlc", "-o", folder / "ebin", *sorted((folder / "src").glob("*.erl")), client / "test/grain_works.erl"], check=True)
    (folder / "src/grain_registry.app.src").rename(folder / "ebin/grain_registry.app")


class Nodes(Processes):
    """Agents, and a node at each: v1 at a1."""

    def __init__(self, *words):
        super().__init__(*words, "")
        self.nodes = tuple(name.replace("a", "v") for name in self.agents)
        self.wakings = {name: [] for name in self.nodes}
        (self.folder / "stamps").mkdir()

    def start(self, name):
        if name[0] != "v":
            super().start(name)
        elif name not in self.running:
            self.spawn(name, self.network.inside(self.agent_of(name)), self.node(name))

    @staticmethod
    def agent_of(node):
        return node.replace("v", "a")

    def node(self, name):
        here = self.network.hosts[self.agent_of(name)]
        return ["erl", "-noinput", "-name", f"{name}@{here}", "-setcookie", "trial", "-start_epmd", "false", "-erl_epmd_port", "4370", "+S", "2:2",
                "-kernel", "prevent_overlapping_partitions", "false", "-kernel", "net_ticktime", "4", "-pa", str(self.folder / "ebin"),
                "-run", "grain_works", "main", str(self.folder), self.socket(self.agent_of(name)), name]

    def signal(self, name, number):
        if number == SIGCONT and name in self.wakings:
            self.wakings[name].append(time_ns())
        super().signal(name, number)

    def tell(self, phase):
        """What all nodes are to do."""
        new = self.folder / "phase.new"
        new.write_text(phase)
        new.rename(self.folder / "phase")

    def have_done(self, phase):
        return all((self.folder / f"{name}.{phase.replace(' ', '.')}").exists() for name in self.nodes)

    def troubles(self):
        return " ".join(f"{name}: {file.read_text()}" for name in self.nodes if (file := self.folder / f"{name}.trouble").exists())


@dataclass(order=True)
class Work:
    name: int
    first: int
    last: int
    token: int
    node: str
    kind: str  # whether the process `asks` before each stamp, or `relies` on being killed
    stamps: tuple


def works(folder):
    """All works so far, name by name in the order in which they began."""
    found = []
    for file in os.scandir(folder / "stamps"):
        name, token, node, kind, *_ = file.name.split("-")
        with open(file.path, "rb") as stamped:
            text = stamped.read()
        stamps = struct.unpack(f">{len(text) // 8}Q", text[:len(text) // 8 * 8])
        if stamps:
            found.append(Work(int(name), stamps[0], stamps[-1], int(token), node, kind, stamps))
    return sorted(found)


def judge(all_works, wakings):
    """What is wrong with works, and of what kind those are that went on when they woke, though another had begun, and for how long: their tokens
    have to be lower."""
    wrong, late = [], []
    for one in range(len(all_works)):
        work = all_works[one]
        for other in all_works[one + 1:]:
            if other.name != work.name:
                break
            if other.token < work.token:
                wrong.append(f"a token fell from {work.token} at {work.node} to {other.token} at {other.node}, of name {work.name}")
            if other.first <= work.last:
                took = beyond(work, other, wakings[work.node])
                if took is not None:
                    late.append((work.kind, took))
                else:
                    wrong.append(f"name {work.name}: {work.node} worked on for {(work.last - other.first) / 1e6:.3f} ms beside {other.node}"
                                 f" (tokens {work.token}, {other.token})")
    return wrong, late


def beyond(work, other, wakings):
    """For how long a work went on behind a waking, if that alone is why it was beside another one, whose token is higher; else None."""
    beside = [stamp for stamp in work.stamps if stamp >= other.first]
    before = [waking for waking in wakings if waking <= beside[0]]
    if other.token > work.token and before and beside[-1] - before[-1] <= WAKING_NS:
        return beside[-1] - before[-1]
    return None


def clear(folder):
    rmtree(folder / "stamps")
    (folder / "stamps").mkdir()
