"""A world with time: edges around correct replicas, clients that wait and ask again, liars, and links between them."""
import collections
import random
from dataclasses import dataclass

from . import policy
from .edge import Edge
from .frames import Kind, kind_of, read
from .links import Links, LinkSizes
from .own_frames import ALL
from .sizes import FIRST_CLIENT, Refusal
from .stated_runs import SET_A
from .watched import Watched
from .world import Relay, Submit


@dataclass(frozen=True)
class Options:
    """Numbers of the doorkeeper, rules that are left out, to see what they are for, and how restless the world is."""
    most_climb: object = None
    pace: int = policy.PACE
    without: frozenset = frozenset()
    restless: int = 0           # all views end each time so many ticks are over


@dataclass(frozen=True)
class Wait:
    """A request that was answered, or that waits still (view is None)."""
    client: int
    since: int
    ticks: int
    view: object


class Town:
    def __init__(self, seed, config, faulty, sizes=LinkSizes(), options=Options()):
        self.rng = random.Random("town %s" % (seed,))
        self.options = options
        self.config, self.world = config, Watched(config, faulty)
        self.links = Links(self.rng, sizes)
        self.times = policy.Times(1 + sizes.delay)
        self.now = 0
        self.count = collections.Counter()
        self.frames = {}                        # number in the record -> frame
        self.to_themselves = collections.deque()
        self.since, self.request = {}, {}       # client -> tick, number in the record
        self.waits = []
        self.edges = {number: Edge(self, number, options) for number in self.world.replicas}

    # ---- frames

    def frame(self, item):
        """What a frame of the record, or what bytes spell; None where they are no frame."""
        if not isinstance(item, int):
            return self._read(item)
        if item not in self.frames:
            self.frames[item] = self._read(self.world.record[item].data)
        return self.frames[item]

    def _read(self, data):
        try:
            return read(self.config, data)
        except Refusal:
            return None

    def send(self, source, number, to):
        """A frame of the record goes out: to one, or to all replicas."""
        kind = kind_of(self.world.record[number].data)
        receivers = range(self.config.n) if to == ALL else [to]
        self.count["frames of kind %s" % Kind(kind).name] += len(receivers)
        for receiver in receivers:
            if receiver == source:
                self.to_self(receiver, source, number)
            elif receiver in self.edges or receiver - FIRST_CLIENT in self.world.sessions:
                self.links.send(self.now, source, receiver, number)

    def pass_on(self, source, item, to):
        """A replica passes a client's request on: to another, or to all others."""
        for receiver in range(self.config.n) if to == ALL else [to]:
            if receiver != source and receiver in self.edges:
                self.count["requests passed on"] += 1
                self.links.send(self.now, source, receiver, item)

    def to_self(self, receiver, source, item):
        self.to_themselves.append((receiver, source, item))

    def come_to_itself(self):
        """What replicas sent to themselves comes at once."""
        while self.to_themselves:
            receiver, source, item = self.to_themselves.popleft()
            self.edges[receiver].handle(source, item)

    # ---- time

    def run(self, ticks, liars=None, is_done=lambda: False):
        for _ in range(ticks):
            self.now += 1
            self._tick(liars)
            if is_done():
                return

    def _tick(self, liars):
        for client in self.world.sessions:
            self._ask(client)
        if liars:
            liars.act()
        for source, to, item in self.links.due(self.now):
            self._come(source, to, item)
        ends = self.options.restless and self.now % self.options.restless == 0
        for edge in self.edges.values():
            edge.end_view() if ends else edge.clock()
            self.come_to_itself()
            edge.send_vote()
        self.come_to_itself()

    def _come(self, source, to, item):
        if to in self.edges:
            self.edges[to].handle(source, item)
            self.come_to_itself()
        else:
            receipt = self.world.happen(Relay(item, to))[2]
            if receipt:
                client = to - FIRST_CLIENT
                self.waits.append(self._wait(client, self.world.view()))

    def _wait(self, client, view=None):
        return Wait(client, self.since[client], self.now - self.since[client], view)

    def still_waiting(self):
        return [self._wait(client) for client, session in self.world.sessions.items() if session.outstanding]

    def blocks(self):
        """So many were proposed by correct replicas, in the best case of all."""
        return max(replica.voted_height for replica in self.world.replicas.values())

    def crowd(self):
        """The most blocks of one height with a correct replica."""
        return max(max(replica.tree.of_height.values(), default=0) for replica in self.world.replicas.values())

    def check(self):
        """No two correct replicas decide differently, none stopped, and what has grounds could be certified. No height
        has more blocks than its accounts allow."""
        self.world.check()
        assert self.crowd() <= policy.most_of_a_height(self.config.n), "crowded"
        histories = sorted((replica.history for replica in self.world.replicas.values()), key=len)
        for short, long in zip(histories, histories[1:]):
            assert long[:len(short)] == short, "histories differ"

    def _ask(self, client):
        """A client has its next request, or sends the last one again."""
        if not self.world.sessions[client].outstanding:
            self.world.happen(Submit(client, SET_A))
            self.request[client], self.since[client] = len(self.world.record) - 1, self.now
        if (self.now - self.since[client]) % self.times.repeat == 0:
            for replica in self.edges:
                self.links.send(self.now, FIRST_CLIENT + client, replica, self.request[client])
