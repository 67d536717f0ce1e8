"""The processes of a trial: three etcd, two NATS, agents; each in a namespace of its own, and started again when it has ended."""

import os
from pathlib import Path
from signal import SIGCONT, SIGKILL, SIGTERM
from subprocess import STDOUT, Popen, run
from time import monotonic, sleep

ETCDS = ("e1", "e2", "e3")
BROKERS = ("n1", "n2")
TTL = int(os.environ.get("TTL", "3"))


class Processes:
    def __init__(self, network, folder, programs, count, transport, words, planted, rates=("1",)):
        self.network, self.folder, self.programs, self.words, self.transport = network, Path(folder), programs, words, transport
        self.rates = rates
        self.agents = tuple(f"a{n}" for n in range(1, count + 1))
        self.running, self.starts, self.statuses = {}, {}, []
        self.environment = dict(os.environ, GOMAXPROCS="2", GRAIN_DIRECTORY_PLANTED=planted)
        for name in (*ETCDS, *BROKERS, *self.agents):
            network.add(name)

    def start(self, name):
        """Starts a process, unless it runs."""
        if name in self.running:
            return
        self.spawn(name, self.network.inside(name), {"e": self.etcd, "n": self.broker, "a": self.agent}[name[0]](name))

    def spawn(self, name, inside, command):
        environment = dict(self.environment, GRAIN_DIRECTORY_CLOCK_RATE=self.rates[int(name[1:]) % len(self.rates)])
        with open(self.folder / f"{name}.log", "ab") as log:
            self.running[name] = Popen([*inside, *command], stdout=log, stderr=STDOUT, env=environment, start_new_session=True)
        self.starts[name] = self.starts.get(name, 0) + 1

    def etcd(self, name):
        here = self.network.hosts[name]
        cluster = ",".join(f"{one}=http://{self.network.hosts[one]}:2380" for one in ETCDS)
        return ["etcd", "--name", name, "--data-dir", str(self.folder / f"{name}.data"), "--log-level", "error", "--initial-cluster", cluster,
                "--listen-client-urls", f"http://{here}:2379,http://127.0.0.1:2379", "--advertise-client-urls", f"http://{here}:2379",
                "--listen-peer-urls", f"http://{here}:2380", "--initial-advertise-peer-urls", f"http://{here}:2380"]

    def broker(self, name):
        here, other = self.network.hosts[name], self.network.hosts[BROKERS[1 - BROKERS.index(name)]]
        return ["nats-server", "-a", here, "-p", "4222", "--cluster", f"nats://{here}:6222", "--cluster_name", "c", "--routes", f"nats://{other}:6222"]

    def directory(self):
        """The words that all agents share."""
        return [self.programs["agent"], "--cluster=trial", f"--ttl={TTL}s", f"--transport={self.transport}", "--points=8",
                "--etcd=" + ",".join(f"{self.network.hosts[one]}:2379" for one in ETCDS)]

    def create(self):
        """Begins the directory, once etcd answers; older agents do so themselves."""
        if "older" in self.programs:
            return
        run([*self.network.inside(self.agents[0]), *self.directory(), "--create"], check=True, env=self.environment)

    def agent(self, name):
        hosts = self.network.hosts
        is_older = "older" in self.programs and (self.starts.get(name, 0) + int(name[1:])) % 2 == 1
        program, *directory = self.directory()
        return [self.programs["older"] if is_older else program, *directory, f"--endpoint={hosts[name]}:7000", f"--socket={self.socket(name)}",
                f"--program={self.programs['silo']}", "--lock-delay=500ms", "--silent-after=3s", "--transport-timeout=6s", "--leave-timeout=10s",
                *(() if is_older else ("--tcp-plain",)),
                "--nats=" + ",".join(f"nats://{hosts[one]}:4222" for one in BROKERS), *self.words]

    def socket(self, name):
        return f"{self.folder}/{name}.sock"

    def sockets(self):
        return ",".join(self.socket(name) for name in self.agents)

    def signal(self, name, number):
        if name in self.running and self.running[name].poll() is None:
            self.running[name].send_signal(number)

    def silo(self, name):
        """The silo's process of an agent, or None."""
        parent = self.running[name].pid if name in self.running else 0
        for stat in Path("/proc").glob("[0-9]*/stat"):
            try:
                fields = stat.read_text().rpartition(")")[2].split()
                if int(fields[1]) == parent and b"\0silo\0" in (stat.parent / "cmdline").read_bytes():
                    return int(stat.parent.name)
            except (OSError, ValueError, IndexError):
                continue
        return None

    def signal_silo(self, name, number):
        process = self.silo(name)
        if process:
            try:
                os.kill(process, number)
            except ProcessLookupError:
                pass

    def supervise(self, but=()):
        """Starts again what has ended."""
        for name, process in list(self.running.items()):
            status = process.poll()
            if status is not None:
                if name[0] == "a":
                    self.statuses.append((name, status))
                del self.running[name]
                if name not in but:
                    self.start(name)

    def unread(self):
        """What agents say of messages that their silo couldn't read."""
        said = []
        for name in self.agents:
            with open(self.folder / f"{name}.log", encoding="utf-8", errors="replace") as log:
                said += [f"{name} says: {line.strip()}" for line in log if "can't read a message" in line]
        return said

    def leader(self):
        """The etcd that leads, or None."""
        for name in ETCDS:
            with Popen([*self.network.inside(name), "etcdctl", "--endpoints=http://127.0.0.1:2379", "endpoint", "status"], stdout=-1, stderr=-3,
                       env=dict(os.environ, ETCDCTL_API="3"), text=True) as asked:
                if ", true," in asked.communicate()[0]:
                    return name
        return None

    def end(self, name, number=SIGKILL, within=15):
        """Ends a process, and waits for it."""
        process = self.running.pop(name, None)
        if process is None:
            return
        process.send_signal(number)
        until = monotonic() + within
        while process.poll() is None and monotonic() < until:
            sleep(0.02)
        if process.poll() is None:
            process.kill()
            process.wait()
        if name[0] == "a" and number == SIGTERM:
            self.statuses.append((name, process.returncode))

    def end_all(self):
        for name in list(self.running):
            self.signal_silo(name, SIGCONT)
            self.end(name)
