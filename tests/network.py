"""A network of hosts on this machine, each a namespace, whose links can be cut and bent. For hosts, chaos and wire_liar.

All packets go through one namespace more, the middle. There a cut drops what goes from one host to another, so it may be cut
one way alone; and what goes over a bent link takes its way through tests/router.py. Needs root and iproute2.
"""
import ctypes
import json
import os
import subprocess
import sys
from contextlib import contextmanager

HERE = os.path.dirname(os.path.abspath(__file__))
CUT, BENT = 10, 20      # the priorities of rules in the middle
AWAY = 100              # the routing table that leads into the router
DEVICE = "bend"
CLONE_NEWNET = 0x40000000


def ip(*words):
    subprocess.run(["ip", *words], check=True)


def ip_all(namespace, lines):
    """Many commands of `ip` in a namespace at once."""
    if lines:
        subprocess.run(["ip", "-n", namespace, "-batch", "-"], input="\n".join(lines), text=True, check=True)


def enter(namespace_file):
    if ctypes.CDLL(None, use_errno=True).setns(namespace_file.fileno(), CLONE_NEWNET):
        raise OSError(ctypes.get_errno(), "setns")


class Network:
    """Hosts by their names. What is cut and bent is kept as pairs: from whom, to whom."""

    def __init__(self, names, seed=0):
        self.names, self.seed, self.mark = list(names), seed, f"mcbft{os.getpid()}-{id(self):x}"
        self.cuts, self.bent, self.router = set(), set(), None
        self.middle = self.namespace("middle")

    def namespace(self, name):
        return f"{self.mark}-{name}"

    def address(self, name):
        return f"10.77.{self.names.index(name)}.2"

    def make(self):
        """The namespaces and their links; nothing is cut."""
        ip("netns", "add", self.middle)
        ip_all(self.middle, ["link set lo up"])
        subprocess.run(["ip", "netns", "exec", self.middle, "sh", "-c", "echo 1 > /proc/sys/net/ipv4/ip_forward"], check=True)
        for number, name in enumerate(self.names):
            self.add_host(number, name)

    def add_host(self, number, name):
        host = self.namespace(name)
        ip("netns", "add", host)
        ip_all(self.middle, [f"link add v{number} type veth peer name out netns {host}",
                             f"addr add 10.77.{number}.1/24 dev v{number}", f"link set v{number} up"])
        ip_all(host, [f"addr add {self.address(name)}/24 dev out", "link set lo up", "link set out up",
                      f"route add default via 10.77.{number}.1"])

    def close(self):
        """All of it goes; processes that run in it have to be ended before."""
        if self.router:
            self.router.stdin.close()
            self.router.wait()
        listed = subprocess.run(["ip", "netns", "list"], capture_output=True, text=True, check=True).stdout
        for name in (line.split()[0] for line in listed.splitlines() if line.startswith(self.mark)):
            ip("netns", "del", name)

    @contextmanager
    def inside(self, name):
        """Sockets that this thread makes meanwhile are a host's."""
        with open("/proc/thread-self/ns/net", "rb") as home, open(f"/run/netns/{self.namespace(name)}", "rb") as there:
            enter(there)
            try:
                yield
            finally:
                enter(home)

    # ---- pairs

    def both(self, some, others):
        """The pairs from each of some hosts to each of others, and back."""
        return {pair for one in some for other in others if one != other for pair in ((one, other), (other, one))}

    def around(self, *some):
        """The pairs between some hosts and all the others."""
        return self.both(some, [name for name in self.names if name not in some])

    def rule(self, do, priority, pair, action):
        return f"rule {do} pref {priority} from {self.address(pair[0])} to {self.address(pair[1])} {action}"

    def cut(self, pairs):
        """Nothing goes over these any more."""
        new = set(pairs) - self.cuts
        ip_all(self.middle, [self.rule("add", CUT, pair, "blackhole") for pair in sorted(new)])
        self.cuts |= new

    def heal(self, pairs=None):
        """These are whole again; all are, if none are named."""
        old = self.cuts & (self.cuts if pairs is None else set(pairs))
        ip_all(self.middle, [self.rule("del", CUT, pair, "blackhole") for pair in sorted(old)])
        self.cuts -= old

    # ---- bent links

    def start_router(self):
        words = ["ip", "netns", "exec", self.middle, sys.executable, os.path.join(HERE, "router.py"), DEVICE, str(self.seed)]
        self.router = subprocess.Popen(words, stdin=subprocess.PIPE, stdout=subprocess.PIPE, text=True, bufsize=1)
        self.router.stdout.readline()
        ip_all(self.middle, [f"link set {DEVICE} txqueuelen 10000", f"link set {DEVICE} up",
                             f"route add default dev {DEVICE} table {AWAY}"])

    def bend(self, pairs, **terms):
        """What goes over these does so on such terms (`router.Terms`)."""
        if not self.router:
            self.start_router()
        for one, other in pairs:
            told = {"from": self.address(one), "to": self.address(other), **terms}
            self.router.stdin.write(json.dumps(told) + "\n")
            self.router.stdout.readline()
        new = set(pairs) - self.bent
        ip_all(self.middle, [self.bent_rule("add", pair) for pair in sorted(new)])
        self.bent |= new

    def bent_rule(self, do, pair):
        return self.rule(do, BENT, pair, f"iif v{self.names.index(pair[0])} lookup {AWAY}")

    def straighten(self, pairs=None):
        """These take no way through the router any more; none does, if none are named."""
        old = self.bent & (self.bent if pairs is None else set(pairs))
        ip_all(self.middle, [self.bent_rule("del", pair) for pair in sorted(old)])
        self.bent -= old
