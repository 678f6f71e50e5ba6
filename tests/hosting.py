"""A deployment of which each process is a host of its own, connections that go on by new ones, and what replicas log.

For tests/hosts, tests/chaos and tests/wire_liar.
"""
import os
import re
import shutil
import signal
import sys
import tempfile
import threading
import time
from contextlib import contextmanager

HERE = os.path.dirname(os.path.abspath(__file__))
sys.path.insert(0, os.path.join(os.path.dirname(HERE), "bin"))
from deploying import Deployment, NotStarted  # noqa: E402
from network import Network  # noqa: E402
from scripts import beside  # noqa: E402

FALSE_PARTY = os.path.join(HERE, "false_party.py")
PORT = 7450             # of each replica
KEYS = 8                # of a connection
AGAIN = 0.2             # seconds before a connection that ended is followed by the next
STATUS = re.compile(r"replica \d+: (\d+) commands, \d+ a second; view (\d+), leader r\d+; height (\d+), (\d+) blocks held; "
                    r"(\d+) requests pending; (\d+) frames lost; (\d+) of \d+ others linked")
STUCK = re.compile(r"replica \d+ is stuck: [^\n]*|replica \d+ stopped[^\n]*|mcbft: [^\n]*")
APART = beside(__file__, "apart")
Client, Ended, item, expect = APART.Client, APART.Ended, APART.item, APART.expect


class HostedDeployment(Deployment):
    """Each process runs on the host of its name. Of those that are false tests/false_party.py is run, with more words."""

    def __init__(self, folder, program, network, false):
        super().__init__(folder, program)
        self.network, self.false = network, false

    def addresses(self, replicas):
        return [f"{self.network.address(f'replica-{number}')}:{PORT}" for number in range(replicas)]

    def words(self, name, more=(), **instead):
        words = super().words(name, more, **instead)
        if name in self.false:
            words = [sys.executable, FALSE_PARTY, *words[1:], *self.false[name]]
        return ["ip", "netns", "exec", self.network.namespace(name), *words]

    def client(self, front):
        """A connection to a front, on its host."""
        port = self.port(front)
        with self.network.inside(f"front-{front}"):
            return Client(port)

    def statuses(self):
        """The last status of each replica that logged one."""
        found = {name: STATUS.findall(self.said(name))[-1:] for name in self.replicas()}
        return {name: Status(*map(int, last[0])) for name, last in found.items() if last}

    def complaints(self, name):
        """What a replica said of being stuck, or of its end."""
        return STUCK.findall(self.said(name))

    def stands(self, name):
        """For how many seconds a replica has executed nothing, by its lines of status."""
        heights = [int(status[2]) for status in STATUS.findall(self.said(name))]
        return next((count for count, height in enumerate(reversed(heights)) if height != heights[-1]), len(heights))


class Status:
    """What a line of status tells."""

    def __init__(self, commands, view, height, blocks, pending, lost, linked):
        self.commands, self.view, self.height, self.blocks = commands, view, height, blocks
        self.pending, self.lost, self.linked = pending, lost, linked


@contextmanager
def hosted(program, borne=1, fronts=1, clients=None, seed=0, false=None, **more):
    """A deployment on hosts of its own, which go with it; its folder stays where a fault was counted."""
    signal.signal(signal.SIGTERM, lambda *_: sys.exit("ended from outside"))
    folder = tempfile.mkdtemp(prefix="hosts-")
    names = [f"replica-{number}" for number in range(3 * borne + 1)] + [f"front-{number}" for number in range(fronts)]
    network = Network(names, seed)
    made, faults = HostedDeployment(folder, program, network, false or {}), APART.faults
    try:
        network.make()
        made.make(borne, clients or 8 * fronts, fronts)
        made.start_all(more=["--watch", "1"], **more)
        yield made
    finally:
        made.stop()
        network.close()
        if APART.faults > faults or os.environ.get("KEEP_LOGS"):
            print(f"what processes said is in {made.at('logs')}", flush=True)
        else:
            shutil.rmtree(folder)


def to_its_end(what, call):
    """Makes a call; a fault is counted where it doesn't come to its end."""
    try:
        call()
    except (NotStarted, OSError) as error:
        expect(f"{what} comes to its end", repr(error), None)


class Lasting(threading.Thread):
    """Stores under keys of its own and reads them back, until it's told to end; when its connection ends, the next one goes on.

    A request without an answer may be done at any later time: each connection has fresh keys. `times` has when each answer
    came, with when it was asked for.
    """

    def __init__(self, deployment, front, name, pause=0.0):
        super().__init__(name=name, daemon=True)
        self.deployment, self.front, self.pause = deployment, front, pause
        self.ending, self.life, self.client = False, 0, None
        self.times, self.wrong, self.ends = [], [], []
        self.start()

    @property
    def count(self):
        return len(self.times)

    def ask(self, call, wanted):
        asked = time.monotonic()
        answer = call()
        if answer.startswith(b"SERVER_ERROR"):
            raise Ended(answer)
        if answer != wanted:
            self.wrong.append((answer, wanted))
        self.times.append((asked, time.monotonic()))

    def turns(self):
        """What one connection does."""
        self.client, turn = self.deployment.client(self.front), 0
        while not self.ending:
            key, value = b"%b-%d-%d" % (self.name.encode(), self.life, turn % KEYS), b"%d %d" % (self.life, turn)
            self.ask(lambda: self.client.set(key, value), b"STORED\r\n")
            self.ask(lambda: self.client.get(key), item(key, value))
            turn += 1
            time.sleep(self.pause)

    def run(self):
        while not self.ending:
            try:
                self.turns()
            except (Ended, OSError) as error:
                self.ends.append((time.monotonic(), error.args[0] if error.args else repr(error)))
                time.sleep(AGAIN)
            self.life += 1
            if self.client:
                self.client.close()

    def end(self, seconds=70):
        self.ending = True
        self.join(seconds)

    def first_after(self, moment):
        """How long after a moment an answer came to what was asked later; None if none did."""
        return next((came - moment for asked, came in reversed_until(self.times, moment)), None)

    def longest_pause(self, since, until):
        """The longest time between two answers, of which the later one came behind one moment and the earlier before another:
        how long, and from when on."""
        moments = [came for _, came in list(self.times)]
        pairs = list(zip(moments, [*moments[1:], time.monotonic()]))
        return max(((late - early, early) for early, late in pairs if late > since and early < until),
                   default=(float("inf"), since))


def reversed_until(times, moment):
    """What was asked for behind a moment, oldest first."""
    found = []
    for asked, came in reversed(list(times)):
        if asked < moment:
            break
        found.append((asked, came))
    return reversed(found)
