"""One replica that is given anything: all others lie, and what they sign is taken as checked. So it sees
forks, which no world with enough correct replicas shows. The seed alone decides."""
from dataclasses import replace

from . import requests
from .checks import Checked, Copies
from .frames import (BlockFrame, Certificate, Command, Core, FetchFrame, Kind, NewViewFrame, ProposalFrame,
                     RequestFrame, VoteFrame, kind_of, read)
from .signing import certificate_of, vote_of
from .sizes import TOP, Config, Refusal
from .whole_history import Branch

WEIGHTS = {"block": 40, "again": 8, "vote": 20, "new_view": 3, "request": 8, "fetch": 4, "timeout": 1,
           "beat": 8, "prune": 6, "offer": 10, "gather": 6, "lead": 4, "ask": 1}


class Lone:
    def __init__(self, rng, replica):
        self.rng = rng
        self.config = Config(1, 2)
        self.replica = replica(self.config, rng.choice([0, 0, 1]))
        genesis = Branch()
        self.known = {genesis.digest: genesis}      # all blocks that were ever made
        self.seq = 0
        self.commands = []
        self.forks = rng.choice([0.02, 0.1, 0.4])
        self.kept = rng.choice([0, 0, 1, 3])

    def run(self, length):
        """How many inputs there were before it stopped, if it did."""
        for number in range(length):
            kind = self.rng.choices(list(WEIGHTS), list(WEIGHTS.values()))[0]
            try:
                out = getattr(self, "_" + kind)()
            except Refusal:
                out = []
            if self.replica.stopped:
                return number
            for _, data in out:
                if kind_of(data) == Kind.PROPOSAL:
                    self._note(read(self.config, data))
        return length

    def _note(self, frame):
        parent = self.known.get(frame.core.parent)
        if parent and frame.core.justify <= parent.height and frame.core.height == parent.height + 1:
            self.known.setdefault(frame.core.digest(), Branch(frame.core, frame.cert, True, parent))

    def _some(self):
        """Mostly a high block that the replica has, sometimes any."""
        if self.rng.random() < self.forks:
            return self.rng.choice(list(self.known.values()))
        return self.known[self.rng.choice(list(self.replica.tree.blocks)[-3:])]

    def _certificate(self, block):
        return certificate_of(self.config, block.digest, (0, 1, 2))

    def _bring(self, core, cert):
        """As a proposal, mostly of the replica's own view, or on its own."""
        rng, view = self.rng, self.replica.pacemaker.view
        frame = ProposalFrame(view if rng.random() < 0.9 else min(view + 1, TOP), core, cert)
        if rng.random() < 0.3:
            frame = BlockFrame(rng.randrange(self.config.n), core, cert)
        self._note(frame)
        return self.replica.receive(Checked(frame, rng.random() < 0.95, (0, 1, 2)))

    def _block(self):
        return self._bring(*self._any_block())

    def _offer(self):
        """A block, or an announcement of any certificate."""
        rng, (core, cert) = self.rng, self._any_block()
        frame = ProposalFrame(self.replica.pacemaker.view, core, replace(cert, votes=()))
        if rng.random() < 0.3:
            frame = BlockFrame(rng.randrange(self.config.n), core, replace(cert, votes=()))
        if rng.random() < 0.1:
            view = min(self.replica.pacemaker.view + rng.randrange(3), TOP)
            frame = NewViewFrame(view, rng.randrange(self.config.n), Certificate(bytes(32)))
        else:
            self._note(frame)
        return self.replica.offered(Checked(frame, rng.random() < 0.95))

    def _gather(self):
        rng = self.rng
        senders = tuple(rng.choice([(0, 1), (2, 3), (1, 2, 3), (3,), (2, 2)]))
        frame = BlockFrame(senders[0], *self._any_block())
        self._note(frame)
        return self.replica.gathered(Copies(frame, rng.random() < 0.95, senders))

    def _lead(self):
        """Mostly from the lock, or from something above it."""
        lock, highest = self.replica.lock, self.replica.highest_block
        if self.rng.random() < 0.5:
            return self.replica.lead(self.rng.choice([lock, highest, highest.justified or lock]).digest)
        return self.replica.lead(self._some().digest)

    def _ask(self):
        return self.replica.ask(self.rng.randrange(self.config.n), self._some().digest)

    def _any_block(self):
        rng, parent = self.rng, self._some()
        below = rng.choice([0, 0, 0, 0, 0, 1, 2, 3, parent.height])
        justified = parent.at(max(0, parent.height - below))
        commands = tuple(rng.sample(self.commands, min(len(self.commands), rng.choice([0, 0, 1, 2]))))
        height = parent.height + 1 + (rng.random() < 0.02)
        named = parent.digest if rng.random() < 0.98 else bytes(32)
        cert = self._certificate(justified if rng.random() < 0.97 else self._some())
        return Core(named, height, justified.height, commands), cert

    def _again(self):
        block = self.rng.choice(list(self.known.values()))
        return self._bring(block.core, block.cert) if block.core else []

    def _vote(self):
        digest = self._some().digest
        vote = vote_of(self.config, self.rng.randrange(self.config.n), digest)
        return self.replica.receive(Checked(VoteFrame(digest, vote)))

    def _new_view(self):
        views = [0, 1, self.replica.pacemaker.view + 1, TOP if self.rng.random() < 0.05 else 1]
        view, sender = min(self.rng.choice(views), TOP), self.rng.randrange(self.config.n)
        return self.replica.receive(Checked(NewViewFrame(view, sender, self._certificate(self._some()))))

    def _request(self):
        """A new one, also one that stands in blocks already, or an old one."""
        if self.commands and self.rng.random() < 0.5:
            command = self.rng.choice(self.commands)
        else:
            self.seq += 1
            payload = requests.Request("incr", (b"a",), value=1).canonical()
            command = Command(self.rng.randrange(2), self.seq, payload, bytes(128))
            self.commands.append(command)
        return self.replica.receive(Checked(RequestFrame(command)))

    def _fetch(self):
        digest = self.rng.choice(list(self.known))
        return self.replica.receive(Checked(FetchFrame(self.rng.randrange(self.config.n), digest)))

    def _timeout(self):
        return self.replica.timeout()

    def _beat(self):
        return self.replica.beat()

    def _prune(self):
        top = self.replica.executed.height
        some = [top - self.kept, top - self.kept, top - 1, top + 1, TOP, 0]
        return self.replica.prune(max(0, self.rng.choice(some)))
