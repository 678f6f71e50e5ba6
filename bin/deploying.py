"""A deployment whose replicas and fronts are processes of this machine. For bin/cluster, tests/apart and bench/serve/apart."""
import itertools
import os
import random
import re
import signal
import socket
import subprocess
import time

from crate_list import CRATES, TOP

PROGRAM = os.path.join(CRATES, "mcbft_main", "out", "mcbft_main")
OWN_PORTS = range(12000, 32000)     # Linux gives connections that go out ports above
ONE_ARENA = {"MALLOC_ARENA_MAX": "1"}       # else what a thread frees serves no other
LISTENS = re.compile(r"^listening on (\S+)$", re.M)


class NotStarted(Exception):
    """A process that ended, or said nothing, in place of listening."""


def is_free(port):
    """Whether nobody listens on a port of 127.0.0.1."""
    try:
        socket.create_server(("127.0.0.1", port)).close()
    except OSError:
        return False
    return True


def free_ports(count):
    """So many ports of 127.0.0.1 that nobody listens on. Connections that go out have none of them."""
    free = (port for port in random.sample(OWN_PORTS, len(OWN_PORTS)) if is_free(port))
    return list(itertools.islice(free, count))


def shares(clients, fronts):
    """How many clients each front has: as equal as they can be."""
    return [clients // fronts + (number < clients % fronts) for number in range(fronts)]


def read(path):
    with open(path, encoding="utf-8", errors="replace") as file:
        return file.read()


class Process:
    """A process that was started, perhaps by another call of this script."""

    def __init__(self, pid, began, child=None):
        self.pid, self.began, self.child = pid, began, child

    @staticmethod
    def began_at(pid):
        """When a process began, in ticks since the machine did; None where there is none, or all its threads have ended."""
        try:
            behind = read(f"/proc/{pid}/stat").rpartition(")")[2].split()
            has_ended = behind[0] == "Z" and len(os.listdir(f"/proc/{pid}/task")) == 1
        except OSError:
            return None
        return None if has_ended else int(behind[19])

    def status(self):
        """Its exit status, if it ended and this script started it."""
        return self.child.poll() if self.child else None

    def runs(self):
        self.status()
        return self.began is not None and self.began_at(self.pid) == self.began

    def send(self, number):
        """Sends it a signal. Nothing is done to another process that has its number by now."""
        if self.runs():
            os.kill(self.pid, number)

    def kill(self, number=signal.SIGKILL):
        """Ends it."""
        self.send(number)
        until = time.monotonic() + 10
        while self.runs() and time.monotonic() < until:
            time.sleep(0.01)


class Deployment:
    """A deployment in a folder: its file, keys, state directories, and what its processes say."""

    def __init__(self, folder, program=PROGRAM):
        self.folder, self.program, self.processes = folder, program, {}

    def at(self, *names):
        return os.path.join(self.folder, *names)

    def state(self, name):
        return self.at("state", name)

    def addresses(self, replicas):
        """Where so many replicas are reached."""
        return [f"127.0.0.1:{port}" for port in free_ports(replicas)]

    def make(self, faults=1, clients=8, fronts=1, keys_held=65536):
        """Writes the deployment file, and makes keys and empty state directories."""
        replicas = 3 * faults + 1
        lines = [f"faults {faults}", f"clients {clients}", f"keys-held {keys_held}"]
        lines += [f"replica {number} {address}" for number, address in enumerate(self.addresses(replicas))]
        lines += [f"front {number} {count}" for number, count in enumerate(shares(clients, fronts))]
        os.makedirs(self.folder, exist_ok=True)
        with open(self.at("deployment"), "w", encoding="ascii") as file:
            file.write("".join(line + "\n" for line in lines))
        words = [os.path.join(TOP, "bin", "make-keys"), "--deployment", self.at("deployment"), self.at("keys")]
        subprocess.run(words, check=True)
        for name in self.names():
            os.makedirs(self.state(name), mode=0o700)
        os.makedirs(self.at("logs"))

    def count(self, word):
        return sum(line.startswith(word + " ") for line in read(self.at("deployment")).splitlines())

    def replicas(self):
        return [f"replica-{number}" for number in range(self.count("replica"))]

    def fronts(self):
        return [f"front-{number}" for number in range(self.count("front"))]

    def names(self):
        return self.replicas() + self.fronts()

    def words(self, name, more=(), deployment=None, keys=None, state=None):
        """The command line of a process."""
        role, _, number = name.partition("-")
        return [self.program, role, "--id", number, "--deployment", deployment or self.at("deployment"),
                "--keys", keys or self.at("keys", name), "--state", state or self.state(name), *more]

    def start(self, name, more=(), log=None, **instead):
        """Starts a process; what it says goes into a log of its own. Doesn't wait until it listens."""
        with open(self.log_path(log or name), "wb") as said:
            child = subprocess.Popen(self.words(name, more, **instead), stdin=subprocess.DEVNULL, stdout=said,
                                     stderr=subprocess.STDOUT, start_new_session=True, env={**os.environ, **ONE_ARENA})
        process = Process(child.pid, Process.began_at(child.pid), child)
        self.processes[log or name] = process
        return process

    def log_path(self, name):
        return self.at("logs", name)

    def said(self, name):
        """What a process said so far."""
        return read(self.log_path(name))

    def listens(self, name, seconds=30):
        """Where a process listens, once it does."""
        until = time.monotonic() + seconds
        while True:
            runs = self.processes[name].runs()
            found = LISTENS.search(self.said(name))
            if found:
                return found.group(1)
            if not runs or time.monotonic() > until:
                raise NotStarted(f"{name} {'says nothing' if runs else 'ended'}: {self.said(name).strip()}")
            time.sleep(0.02)

    def port(self, front=0, seconds=30):
        """The port of a front."""
        return int(self.listens(f"front-{front}", seconds).rpartition(":")[2])

    def start_all(self, ports=None, liars=None, more=()):
        """Starts all processes, replicas first, and waits until all listen. Liars are lies by replicas' numbers."""
        for number, name in enumerate(self.replicas()):
            lie = (liars or {}).get(number)
            self.start(name, [*more, *(["--liar", lie] if lie else [])])
        for number, name in enumerate(self.fronts()):
            self.start(name, ["--port", str(ports[number] if ports else 0)])
        for name in self.names():
            self.listens(name)

    def stop(self):
        """Ends all that run."""
        for process in self.processes.values():
            process.kill()
