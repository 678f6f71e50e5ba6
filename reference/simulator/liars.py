"""What faulty parties saw of a world, and the frames that they make of it: with votes, certificates and commands that
are right for some receivers alone."""
import collections

from . import frames
from .frames import GENESIS, BlockFrame, Certificate, Command, Core, Kind, Vote, VoteFrame, write
from .signing import block_of, command_of, half_command, half_vote
from .sizes import FIRST_CLIENT
from .stated_runs import GET_A


class Liars:
    """What faulty parties saw, and the frames that they make of it."""

    def __init__(self, rng, world):
        self.rng, self.world, self.config = rng, world, world.config
        self.bad = sorted(party for party in world.faulty if party < FIRST_CLIENT)
        self.bad_clients = sorted(party - FIRST_CLIENT for party in world.faulty if party >= FIRST_CLIENT)
        self.good = sorted(world.replicas)
        self.votes = collections.defaultdict(dict)      # of correct replicas: digest -> voter -> vote
        self.cores = {GENESIS: None}
        self.commands = []
        self.seqs = collections.Counter()
        self.half = rng.choice([0, 0.3, 0.7, 1])        # how often a certificate is right for some alone

    def see(self, data):
        frame = frames.read(self.config, data)
        if frame.kind == Kind.VOTE:
            self.votes[frame.digest][frame.vote.voter] = frame.vote
        elif frame.kind == Kind.REQUEST:
            self.commands.append(frame.command)
        elif frame.kind in (Kind.PROPOSAL, Kind.BLOCK):
            self.cores.setdefault(frame.core.digest(), frame.core)

    def height(self, digest):
        return self.cores[digest].height if digest != GENESIS else 0

    def branch(self, digest):
        """Digests from this one down to genesis."""
        found = [digest]
        while found[-1] != GENESIS:
            found.append(self.cores[found[-1]].parent)
        return found

    def high(self, count):
        """A block, mostly one of the highest."""
        known = sorted(self.cores, key=lambda digest: (self.height(digest), digest))
        return self.rng.choice(known[-count:] if self.rng.random() < 0.75 else known)

    def highest(self, digests):
        return max(digests & self.cores.keys(), key=lambda digest: (self.height(digest), digest))

    def few(self):
        """To whom something is shown."""
        all_, most_few = len(self.good), self.config.f + 1
        return self.rng.sample(self.good, self.rng.choice([all_, most_few, most_few, 1, self.rng.randint(1, all_)]))

    def can_certify(self, digest):
        return digest == GENESIS or len(self.votes[digest]) + len(self.bad) >= self.config.quorum

    def certificate(self, digest, receivers):
        """One that is good for these, with as few correct votes as it takes or more; none where it can't be had."""
        honest, quorum = self.votes[digest], self.config.quorum
        if digest == GENESIS or not self.can_certify(digest):
            return Certificate(GENESIS) if digest == GENESIS else None
        own = self.rng.randint(max(0, quorum - len(honest)), min(len(self.bad), quorum))
        alone = receivers if self.rng.random() < self.half else range(self.config.n)
        votes = [honest[voter] for voter in self.rng.sample(sorted(honest), quorum - own)]
        votes += [half_vote(self.config, voter, digest, alone) for voter in self.rng.sample(self.bad, own)]
        return Certificate(digest, tuple(sorted(votes, key=lambda vote: vote.voter)))

    def made_up(self, digest):
        """A certificate without votes, or with votes that nobody gave."""
        voters = sorted(self.rng.sample(range(self.config.n), self.config.quorum))
        votes = tuple(Vote(voter, bytes(32 * self.config.n)) for voter in voters)
        return Certificate(digest, self.rng.choice([(), votes]) if digest != GENESIS else ())

    def command(self):
        client = self.rng.choice(self.bad_clients)
        self.seqs[client] += 1
        return command_of(self.config, client, self.seqs[client], GET_A)

    def forged_command(self):
        """In the name of a client that may be correct, with tags that nobody made."""
        client, seq = self.rng.randrange(self.config.clients), self.rng.choice([1, 2, 9])
        return Command(client, seq, GET_A, bytes(32 * self.config.n))

    def some_commands(self):
        """Mostly none; what was sent, or an own one, mostly right for few."""
        if self.rng.random() < 0.05:
            return (self.forged_command(),)
        lies, seen = self.bad_clients and self.rng.random() < 0.2, self.commands and self.rng.random() < 0.3
        command = self.command() if lies else self.rng.choice(self.commands) if seen else None
        if command and self.rng.random() < 0.6:
            command = half_command(command, self.few())
        return (command,) if command else ()

    def core(self, parent=None, justified=None):
        """A next block, and what it justifies."""
        parent = parent or self.high(3)
        branch = self.branch(parent)
        certified = [digest for digest in branch[:30] if self.can_certify(digest)]
        if justified not in branch:
            justified = certified[0] if certified and self.rng.random() < 0.6 else self.rng.choice(certified or branch)
        core = Core(parent, len(branch), len(branch) - 1 - branch.index(justified), self.some_commands())
        self.cores[core.digest()] = core
        return core, justified

    def block(self, sender, to, digest):
        """A copy of a block, sometimes in a correct replica's name."""
        core = self.cores[digest]
        justified = self.branch(digest)[core.height - core.justify]
        cert = self.certificate(justified, [to]) if self.rng.random() < 0.6 else None
        cert = cert or self.made_up(justified)
        if self.rng.random() < 0.1:
            return write(BlockFrame(self.rng.choice(self.good), core, cert, bytes(32)))
        return block_of(self.config, sender, to, core, cert)

    def vote_frame(self, digest, receivers, voter):
        return write(VoteFrame(digest, half_vote(self.config, voter, digest, receivers)))
