"""What liars do in a world with time. Each attack is a class; its name in the table is its key in `ATTACKS`."""
import itertools

from .frames import GENESIS, TAG, Certificate, Command, Core, Kind, RequestFrame, VoteFrame, write
from .liars import Liars
from .signing import block_of, command_of, half_command, half_vote, new_view_of, proposal_of
from .sizes import FIRST_CLIENT
from .stated_runs import GET_A, SET_A

FAR = 10 ** 9


class Attacker:
    """Liars who see all that correct parties send, and have an attack each tick until they fall silent."""
    left_out = ()                   # clients whose requests liars don't propose

    def __init__(self, town, quiet=FAR):
        self.town, self.world, self.config, self.rng = town, town.world, town.config, town.rng
        self.liars = Liars(self.rng, town.world)
        self.bad, self.good = self.liars.bad, self.liars.good
        self.quiet, self.seen = quiet, 0
        self.proposals, self.questions = [], []         # that came since the last tick
        self.led = -1                                   # the tick of the last block of a lying leader

    def act(self):
        self.proposals, self.questions = [], []
        for number in range(self.seen, len(self.world.record)):
            self._see(self.town.frame(number), self.world.record[number])
        self.seen = len(self.world.record)
        if self.town.now < self.quiet:
            self.attack()

    def _see(self, frame, sent):
        self.liars.see(sent.data)
        if frame.kind == Kind.PROPOSAL:
            self.proposals.append(frame)
        elif frame.kind == Kind.FETCH and sent.to in self.bad:
            self.questions.append((sent.to, frame))

    def attack(self):
        pass

    def show(self, liar, data, receivers):
        for receiver in receivers:
            self.town.links.send(self.town.now, liar, receiver, data)

    def view(self):
        return self.world.view()

    # ---- votes, answers and blocks

    def vote(self, receivers_of):
        """For each block that was proposed, to all, right for some: receivers_of(core, leader, liar)."""
        for frame, liar in itertools.product(self.proposals, self.bad):
            digest, leader = frame.core.digest(), frame.view % self.config.n
            self.show(liar, write(VoteFrame(digest, half_vote(self.config, liar, digest,
                                                             receivers_of(frame.core, leader, liar)))), self.good)

    def answer(self, cert_of=None):
        """Questions get the right block, with a certificate that is right for who asked, or what is told."""
        for liar, frame in self.questions:
            core = self.liars.cores.get(frame.digest)
            if core:
                justified = self.liars.branch(frame.digest)[core.height - core.justify]
                cert = cert_of(justified) if cert_of else self.liars.certificate(justified, [frame.sender])
                self.show(liar, block_of(self.config, liar, frame.sender, core, cert or Certificate(justified)),
                          [frame.sender])

    def leads(self):
        """The view, where a liar leads it and half of the correct replicas are in it."""
        view = self.view()
        there = sum(replica.pacemaker.view == view for replica in self.world.replicas.values())
        return view if view % self.config.n in self.bad and 2 * there > len(self.good) else None

    def certified(self):
        known = [digest for digest in self.liars.cores if self.liars.can_certify(digest)]
        return max(known, key=lambda digest: (self.liars.height(digest), digest))

    def extend(self, parent, justified, commands=()):
        core = Core(parent, self.liars.height(parent) + 1, self.liars.height(justified), commands)
        digest = core.digest()
        self.liars.cores[digest] = core
        return digest

    def propose(self, view, digest, justified, receivers, half):
        self.liars.half = 1 if half else 0
        cert, leader = self.liars.certificate(justified, receivers), view % self.config.n
        self.show(leader, proposal_of(self.config, view, self.liars.cores[digest], cert), receivers)

    def lead(self, is_spoilt, few=None, period=3):
        """A liar that leads has a block on the highest certified one, with padding: right and to all; or, at these
        heights, to f + 1 (to these few, if any are named) with certificates that are right for these alone."""
        view = self.leads()
        if view is None or self.town.now < self.led + period * self.town.times.way:
            return
        self.led, top = self.town.now, self.certified()
        voted = max(replica.voted_height for replica in self.world.replicas.values())
        half = is_spoilt(self.liars.height(top) + 1)
        receivers = few or self.rng.sample(self.good, self.config.f + 1) if half else self.good
        parent = top
        for _ in range(max(1, voted + 1 - self.liars.height(top))):
            parent = self.extend(parent, top, () if half and not few else self.requests())
            self.propose(view, parent, top, receivers, half)
        for liar in self.bad:
            rightly = receivers if half else range(self.config.n)
            self.show(liar, write(VoteFrame(parent, half_vote(self.config, liar, parent, rightly))), self.good)

    def requests(self):
        """Of clients that wait."""
        last = max(self.world.replicas.values(), key=lambda replica: replica.executor.length).executor.last_seq
        waiting = {command.client: command for command in self.liars.commands if command.seq > last(command.client)}
        return tuple(command for client, command in waiting.items() if client not in self.left_out)[:16]


class Mute(Attacker):
    """Nothing."""


class LeaveOut(Attacker):
    """All is right, but liars that lead never propose the requests of one client."""
    left_out = (0,)

    def attack(self):
        self.vote(lambda _core, _leader, _liar: range(self.config.n))
        self.lead(lambda _height: False)


class HalfVotes(Attacker):
    """Votes are right for the leader alone, at each height, each third, or by liars in turns; so are own blocks."""
    every, in_turns = 1, False

    def is_spoilt(self, height):
        return height % self.every == 0

    def receivers(self, core, leader, liar):
        mine = not self.in_turns or core.height % len(self.bad) == self.bad.index(liar)
        return [leader] if mine and self.is_spoilt(core.height) else range(self.config.n)

    def attack(self):
        self.vote(self.receivers)
        self.answer()
        self.lead(self.is_spoilt)


class EachThird(HalfVotes):
    every = 3


class InTurns(HalfVotes):
    in_turns = True


class WrongDigests(HalfVotes):
    """Half votes; and answers have the right block, with a certificate for another one."""

    def attack(self):
        self.vote(self.receivers)
        self.answer(lambda _justified: Certificate(b"\x07" * 32))
        self.lead(self.is_spoilt)


class FalseClaims(HalfVotes):
    """Half votes; and blocks are announced that nobody has, ever new."""

    def attack(self):
        super().attack()
        for liar in self.bad:
            digest = bytes(self.rng.randrange(256) for _ in range(32))
            self.show(liar, new_view_of(self.config, liar, self.view(), Certificate(digest)), self.good)


class HalfClaims(Attacker):
    """Padding of a lying view is shown to f + 1. Then each replica is shown a block that justifies some of it, with a
    certificate that is right for this one alone, and later, when it leads, some more."""
    claims, length = 3, 40

    def __init__(self, town, quiet=FAR):
        super().__init__(town, quiet)
        self.padded, self.trapped, self.chain, self.shown = set(), set(), [], {}

    def attack(self):
        view = self.leads()
        if view is not None and view not in self.padded:
            self.padded.add(view)
            self._pad(view)
        if view is not None and self.chain and view not in self.trapped and self.liars.can_certify(self.chain[0]):
            self.trapped.add(view)
            self._trap(view)
        leader = self.view() % self.config.n
        if leader in self.good and self.chain and (self.view(), leader) not in self.shown:
            self.shown[self.view(), leader] = [self._claim(leader) for _ in range(self.claims * len(self.bad))]
        self.answer()
        self._announce(leader)

    def _pad(self, view):
        base = self.certified()
        few, parent, self.chain = self.good[-self.config.f - 1:], base, []
        for _ in range(self.length):
            parent = self.extend(parent, base)
            self.propose(view, parent, base, few, True)
            self.chain.append(parent)

    def _trap(self, view):
        for replica in self.good:
            certified = [digest for digest in self.chain if self.liars.can_certify(digest)]
            justified = self.rng.choice(certified)
            self.propose(view, self.extend(self.chain[-1], justified), justified, [replica], True)

    def _claim(self, leader):
        certified = [digest for digest in self.chain if self.liars.can_certify(digest)] or self.chain[:1]
        return self.extend(self.chain[-1], self.rng.choice(certified))

    def _announce(self, leader):
        for at, digest in enumerate(self.shown.get((self.view(), leader), [])):
            if self.town.now % self.claims == at % self.claims:
                liar = self.bad[at % len(self.bad)]
                self.show(liar, new_view_of(self.config, liar, self.view(), Certificate(digest)), [leader])


class ToFew(Attacker):
    """A liar that leads is right to f + 1 alone, always the same. With others certificates aren't good."""

    def attack(self):
        self.lead(lambda _height: True, self.good[-self.config.f - 1:])


class Crowd(HalfVotes):
    """A liar that leads shows each replica other blocks of one height, as many as it lets in, and announces all of them, so
    that each is asked for. Votes are half."""

    def __init__(self, town, quiet=FAR):
        super().__init__(town, quiet)
        self.made = []

    def attack(self):
        view = self.leads()
        if view is not None and self.town.now >= self.led + 6 * self.town.times.way:
            self.led = self.town.now
            self._crowd(view)
        self.vote(self.receivers)
        self.answer()
        for liar in self.bad if self.made else ():
            digest = self.rng.choice(self.made[-8 * len(self.good):])
            self.show(liar, new_view_of(self.config, liar, self.view(), Certificate(digest)), self.good)

    def _crowd(self, view):
        top = self.certified()
        for replica in self.good * 4:
            command = Command(0, len(self.made) + 1, GET_A, bytes(TAG * self.config.n))
            self.made.append(self.extend(top, top, (command,)))
            self.propose(view, self.made[-1], top, [replica], True)


class CrowdOne(Crowd):
    """The same, and one replica gets a block over each of these, so that it asks for all that the others were shown."""

    def _crowd(self, view):
        super()._crowd(view)
        top = self.certified()
        for digest in self.made[-4 * len(self.good):]:
            self.propose(view, self.extend(digest, top), top, self.good[:1], True)


class Race(Attacker):
    """A liar that leads sends as many heights as fit through one link, to one replica alone."""
    speed = 10

    def __init__(self, town, quiet=FAR):
        super().__init__(town, quiet)
        self.top, self.in_view = GENESIS, None

    def attack(self):
        view = self.leads()
        if view is None:
            return
        replica = self.world.replicas[self.good[0]]
        if view != self.in_view:
            self.in_view, self.base = view, self._base(replica)
            self.top = max(replica.tree.blocks.values(), key=lambda block: block.height).digest
            if self.base not in self.liars.branch(self.top):
                self.top = self.base
        for _ in range(self.speed):
            self.top = self.extend(self.top, self.base)
            self.propose(view, self.top, self.base, [replica.me], True)

    def _base(self, replica):
        known = [digest for digest in replica.tree.blocks.keys() & self.liars.cores.keys()
                 if self.liars.can_certify(digest)]
        return max(known, key=lambda digest: (self.liars.height(digest), digest))


class RaceTwice(Race):
    """The same, over blocks that f + 1 replicas certified far above the locks, with a certificate for one alone."""

    def attack(self):
        view = self.leads()
        if view is None:
            return
        if view != self.in_view:
            self.in_view, self.base, self.began = view, self.certified(), self.town.now
            self.top, self.first = self.base, True
        few = self.good[:self.config.f + 1]
        if self.first and self.town.now - self.began > 12 * self.town.times.way and self.liars.can_certify(self.top):
            self.base, self.first = self.top, False
        for _ in range(6):
            self.top = self.extend(self.top, self.base)
            self.propose(view, self.top, self.base, few if self.first else few[:1], True)


class FaultyClients(Attacker):
    """Each request of a faulty client is right for one replica alone, which gets it."""
    period = 5

    def attack(self):
        for client in self.liars.bad_clients:
            if self.town.now % self.period != client % self.period:
                continue
            self.liars.seqs[client] += 1
            command = command_of(self.config, client, self.liars.seqs[client], SET_A)
            for replica in self.good:
                self.show(FIRST_CLIENT + client, write(RequestFrame(half_command(command, [replica]))), [replica])


class FromAMoment(HalfVotes):
    """All is right for a while, then all that is above for a while, again and again."""
    well, ill = 160, 40

    def is_spoilt(self, _height):
        return self.town.now % (self.well + self.ill) >= self.well

    def attack(self):
        super().attack()
        if self.is_spoilt(0):
            for liar in self.bad:
                digest = self.rng.choice(list(self.liars.cores))
                ahead = self.view() + self.rng.choice([0, 0, 1, 5])
                self.show(liar, new_view_of(self.config, liar, ahead, Certificate(digest)), self.good)


ATTACKS = {
    "none": Attacker, "mute": Mute, "leave out": LeaveOut, "half votes": HalfVotes, "each third": EachThird,
    "in turns": InTurns, "wrong digests": WrongDigests, "false claims": FalseClaims, "half claims": HalfClaims,
    "to few": ToFew, "crowd": Crowd, "crowd one": CrowdOne, "race": Race, "race twice": RaceTwice,
    "a moment": FromAMoment, "clients 1": FaultyClients, "clients 6": FaultyClients, "clients 20": FaultyClients,
}
