"""Schedules at random: whole runs under losses, repeats, late frames, timeouts, missing blocks, faulty
parties and injected frames, which are good, cut short, changed in a byte, spelled in the other version, or
signed by a faulty party's own keys. Where blocks may be taken on grounds, faulty parties' votes are right for some
receivers alone, and what is refused for its certificate is offered, asked for and gathered.

The writer of a schedule runs it as it writes, so that each event is one that can happen and the faulty
parties know what was sent. The seed alone decides, whether replicas prune, and whether blocks may be taken on grounds.
"""
import random
from dataclasses import replace

from . import frames
from .blocks import Block
from .checks import OFFERED
from .frames import (GENESIS, BlockFrame, Certificate, Command, Core, FetchFrame, Kind, NewViewFrame,
                     ProposalFrame, ReplyFrame, RequestFrame, Vote, VoteFrame, kind_of, respelled, write, write_old)
from .own_frames import ALL
from .replica import Replica
from .requests import Request
from .signing import halved
from .sizes import FIRST_CLIENT, TOP, Config, Fault, Refusal, party_name
from .tags import Keyring
from .world import Ask, Beat, Gather, Inject, Lead, Offer, Prune, Relay, Submit, Timeout, World

# Whether replicas prune, and whether blocks may be taken on grounds, where nothing else is said.
PRUNES = False
GROUNDS = False

KEYS = [b"a", b"b", b"counter", b"k" * 250]
DATA = [b"", b"x", b"5", b"12x", b"18446744073709551615", b"\r\nset a", bytes(range(256)), b"y" * 4096]


def random_request(rng):
    """A request of memcached's, small ones above all."""
    name = rng.choice(["set", "set", "set", "get", "get", "gets", "add", "replace", "append", "prepend",
                       "cas", "incr", "incr", "decr", "delete"])
    key = rng.choice(KEYS)
    data = rng.choice(DATA[:5]) if rng.random() < 0.9 else rng.choice(DATA)
    if name in ("get", "gets"):
        keys = [rng.choice(KEYS) for _ in range(rng.choice([1, 1, 2, 16]))]
        return Request(name, tuple(keys))
    if name == "delete":
        return Request(name, (key,))
    if name in ("incr", "decr"):
        return Request(name, (key,), value=rng.choice([0, 1, 3, 2 ** 64 - 1]))
    flags = rng.choice([0, 7, 2 ** 32 - 1])
    return Request(name, (key,), flags=flags, data=data, unique=rng.choice([0, 1, 2, 3]))


class Liar:
    """What a faulty party may send: frames with its own keys, of anything that it saw."""

    def __init__(self, rng, config, party, past, halves=False):
        self.halves = halves        # its votes may be right for some receivers alone
        self.rng = rng
        self.config = config
        self.party = party
        self.past = past            # digest -> block, of all that were ever known, where replicas prune
        self.keyring = Keyring(config, party)
        self.seq = 0
        self.cores = []

    def frame(self, world, to):
        """A frame for a party."""
        if self.party >= FIRST_CLIENT:
            return self._request()
        make = self.rng.choice([self._proposal, self._proposal, self._vote, self._vote, self._new_view,
                                self._reply, self._fetch, self._block])
        return make(world, to)

    def _vector(self, kind, content):
        vector = self.keyring.vector(kind, content)
        if self.rng.random() < 0.2:
            at = 32 * self.rng.randrange(self.config.n)
            vector = vector[:at] + bytes(32) + vector[at + 32:]
        return vector

    def _vote_vector(self, digest):
        """Its vote's tags, where it gives half votes mostly of few receivers alone."""
        if not self.halves or self.rng.random() < 0.3:
            return self._vector(Kind.VOTE, digest)
        n, few = self.config.n, self.rng.choice([1, 1, self.config.f + 1, self.config.n - 1])
        return halved(self.keyring.vector(Kind.VOTE, digest), self.rng.sample(range(n), few))

    def half_vote(self, digest, leader):
        """A vote for a block that is right for one replica alone."""
        vector = halved(self.keyring.vector(Kind.VOTE, digest), [leader])
        return self._spelled(VoteFrame(digest, Vote(self.party, vector)))

    def copy(self, world, to, block):
        """A block for a replica, with any certificate for what it justifies."""
        digest, rng = block.justified_digest, self.rng
        cert = rng.choice([Certificate(digest), block.cert, Certificate(digest, self._made_up())])
        frame = BlockFrame(self.party, block.core, cert if rng.random() < 0.95 else self._certificate(world, block))
        return self._spelled(replace(frame, tag=self.keyring.tag(Kind.BLOCK, to, frame.content())))

    def _made_up(self):
        voters = sorted(self.rng.sample(range(self.config.n), self.config.quorum))
        return tuple(Vote(voter, bytes(32 * self.config.n)) for voter in voters)

    def _request(self):
        rng = self.rng
        self.seq = rng.choice([self.seq + 1, self.seq + 1, max(1, self.seq), self.seq + 5])
        payload = rng.choice([random_request(rng).canonical(), b"quit\r\n", b"", bytes(4608), b"abc"])
        command = Command(self.party - FIRST_CLIENT, self.seq, payload)
        return self._spelled(RequestFrame(replace(command, vector=self._vector(Kind.REQUEST, command.content()))))

    def _spelled(self, frame):
        """In either version; mostly in the old one where a certificate has more votes than the new one takes."""
        votes = frame.cert.votes if hasattr(frame, "cert") else ()
        old = 0.8 if len(votes) > self.config.quorum else 0.2
        return write_old(frame) if self.rng.random() < old else write(frame)

    def _known(self, world):
        """A block that some correct replica knows, genesis too; or one that it has forgotten."""
        if self.past and self.rng.random() < 0.3:
            return self.rng.choice(list(self.past.values()))
        tree = self.rng.choice(sorted(world.replicas.items()))[1].tree
        digest = self.rng.choice(sorted(tree.blocks))
        return self.past[digest] if self.past else tree.blocks[digest]

    def _commands(self, world):
        """Commands that were sent, in anyone's name, and some whose tags are invented."""
        rng = self.rng
        requests = [sent.data for sent in world.record if kind_of(sent.data) == Kind.REQUEST]
        seen = [frames.read(self.config, data).command for data in requests]
        picked = [rng.choice(seen) for _ in range(rng.choice([0, 0, 1, 1, 2])) if seen]
        if rng.random() < 0.2:
            client, seq = rng.randrange(self.config.clients), rng.choice([1, 2, 9])
            picked.append(Command(client, seq, random_request(rng).canonical(), bytes(32 * self.config.n)))
        return tuple(picked)

    def _core(self, world):
        rng = self.rng
        parent = self._known(world)
        genesis = world.replicas[min(world.replicas)].tree.genesis
        justified = rng.choice([parent, parent.justified, parent.at(max(0, parent.height - 1)), genesis])
        if justified.height > parent.height:
            justified = parent
        height = parent.height + 1 if rng.random() < 0.93 else parent.height + rng.choice([0, 2])
        if height == 0:
            height = 1
        digest = parent.digest if rng.random() < 0.93 else bytes([rng.randrange(256)]) * 32
        justify = min(justified.height, height - 1)
        return Core(digest, height, justify, self._commands(world)), justified

    def _certificate(self, world, block):
        """One that correct replicas hold, or one of votes that were sent, or nonsense."""
        rng = self.rng
        if rng.random() < 0.1:
            block = self._known(world)      # not the one that the block justifies
        if block.digest == GENESIS and rng.random() < 0.95:
            return Certificate(GENESIS)
        replicas = world.replicas.values()
        held = [replica.highest for replica in replicas if replica.highest.digest == block.digest]
        held += [child.cert for replica in replicas for child in replica.tree.blocks.values()
                 if child.core and child.cert.digest == block.digest]
        if held and rng.random() < 0.6:
            return rng.choice(held)
        picked = self._votes_for(world, block.digest)
        votes = {vote.voter for vote in picked}
        if len(picked) < self.config.quorum:
            missing = [r for r in range(self.config.n) if r not in votes][:self.config.quorum - len(picked)]
            picked += [Vote(r, bytes(32 * self.config.n)) for r in missing]
            picked.sort(key=lambda vote: vote.voter)
        return Certificate(block.digest, self._some_votes(picked))

    def _votes_for(self, world, digest):
        """Those that were sent, and an own one."""
        vector = self._vote_vector(digest) if self.halves else self.keyring.vector(Kind.VOTE, digest)
        votes = {self.party: Vote(self.party, vector)}
        for sent in world.record:
            if kind_of(sent.data) == Kind.VOTE:
                frame = frames.read(self.config, sent.data)
                if frame.digest == digest:
                    votes[frame.vote.voter] = frame.vote
        return [votes[voter] for voter in sorted(votes)]

    def next_proposal(self, world, view):
        """As it should be: a block on the highest one that has a quorum's votes, which all that voted certify."""
        blocks = {block.digest: block for replica in world.replicas.values() for block in replica.tree.blocks.values()}
        for block in sorted(blocks.values(), key=lambda block: (-block.height, block.digest)):
            votes = self._votes_for(world, block.digest) if block.core else []
            if len(votes) >= self.config.quorum or not block.core:
                cert = Certificate(block.digest, self._some_votes(votes) if votes else ())
                core = Core(block.digest, block.height + 1, block.height, self._commands(world))
                frame = ProposalFrame(view, core, cert)
                return self._spelled(replace(frame, vector=self._vector(Kind.PROPOSAL, frame.content())))

    def _some_votes(self, votes):
        """A quorum of them, or all, of which one may be spoilt for some receivers."""
        rng = self.rng
        if rng.random() < 0.4:
            return tuple(sorted(rng.sample(votes, self.config.quorum), key=lambda vote: vote.voter))
        if len(votes) > self.config.quorum and rng.random() < 0.5:
            at = rng.randrange(len(votes))
            tags = [votes[at].vector[32 * r:32 * r + 32] for r in range(self.config.n)]
            tags = [bytes(32) if rng.random() < 0.5 else tag for tag in tags]
            votes[at] = replace(votes[at], vector=b"".join(tags))
        return tuple(votes)

    def _proposal(self, world, _to):
        rng = self.rng
        core, justified = self._core(world)
        if self.cores and rng.random() < 0.3:
            core, justified = rng.choice(self.cores)
        self.cores.append((core, justified))
        views = sorted({replica.pacemaker.view for replica in world.replicas.values()})
        led = [view for view in views if view % self.config.n == self.party]
        view = rng.choice(led) if led and rng.random() < 0.9 else rng.choice(views + [self.party, TOP])
        frame = ProposalFrame(view, core, self._certificate(world, justified))
        return self._spelled(replace(frame, vector=self._vector(Kind.PROPOSAL, frame.content())))

    def _vote(self, world, _to):
        digest = self._known(world).digest if self.rng.random() < 0.9 else bytes(32)
        voter = self.party if self.rng.random() < 0.95 else self.rng.randrange(self.config.n)
        return self._spelled(VoteFrame(digest, Vote(voter, self._vote_vector(digest))))

    def _new_view(self, world, _to):
        view = self.rng.choice([0, 1, 2, 3, 7, TOP])
        frame = NewViewFrame(view, self.party, self._certificate(world, self._known(world)))
        return self._spelled(replace(frame, vector=self._vector(Kind.NEW_VIEW, frame.content())))

    def _reply(self, _world, to):
        rng = self.rng
        client = to - FIRST_CLIENT if to >= FIRST_CLIENT else rng.randrange(self.config.clients)
        frame = ReplyFrame(self.party, client, rng.choice([1, 1, 1, 2, 3]), rng.choice([1, 1, 2, 3, 9]),
                           rng.choice([b"STORED\r\n", b"EXISTS\r\n", b"END\r\n", b"", b"x" * 70293]))
        tag = self.keyring.tag(Kind.REPLY, FIRST_CLIENT + client, frame.content())
        return self._spelled(replace(frame, tag=tag))

    def _fetch(self, world, to):
        digest = self._known(world).digest if self.rng.random() < 0.8 else bytes(32)
        return self.question(to if to < FIRST_CLIENT else 0, digest)

    def question(self, to, digest):
        frame = FetchFrame(self.party, digest)
        return self._spelled(replace(frame, tag=self.keyring.tag(Kind.FETCH, to, frame.content())))

    def _block(self, world, to):
        again = self._known(world) if self.past and self.rng.random() < 0.3 else None
        core, justified = (again.core, again.justified) if again and again.core else self._core(world)
        self.cores.append((core, justified))
        frame = BlockFrame(self.party, core, self._certificate(world, justified))
        to = to if to < FIRST_CLIENT else 0
        return self._spelled(replace(frame, tag=self.keyring.tag(Kind.BLOCK, to, frame.content())))


class Writer:
    """Writes one schedule, with prunings or without, with blocks that are taken on grounds or without."""

    def __init__(self, rng, clients=None, prunes=PRUNES, replica=Replica, grounds=GROUNDS, faults=None):
        self.rng = rng
        f = rng.choice([1, 1, 1, 1, 1, 2, 3, 4]) if rng.random() < 0.94 else rng.choice([5, 6, 7, 10])
        f = faults or f
        some = rng.choice([1, 1, 2, 2, 3, 8, 64])
        config = Config(f, clients or some)
        self.faulty = self._faulty(config) if not grounds or rng.random() < 0.05 else self._most_faulty(config)
        self.config = config
        self.world = World(config, self.faulty, replica)
        self.past = {GENESIS: Block(GENESIS, None, None, True, None, None)} if prunes else {}
        self.liars = [Liar(rng, config, party, self.past, grounds) for party in self.faulty]
        self.refused = []           # (source, replica) of the last frames that were refused for a tag
        self.events = []
        self.waiting = []           # (frame, party) that are still to be brought
        self.loss = rng.choice([0, 0, 0.02, 0.1, 0.3])
        self.repeat = rng.choice([0, 0, 0.05, 0.2])
        self.lateness = rng.choice([1, 1, 4, 30])
        self.old = rng.choice([0, 0, 0.05, 0.3])    # so much of what was sent comes spelled in version 1
        self.patient = rng.random() < 0.7       # beats come once all that waits was brought
        self.deaf = rng.sample(range(config.n), rng.choice([0, 0, 0, 1, min(2, f)]))
        self.weights = {
            "bring": 60, "submit": rng.choice([0, 3, 8]), "beat": rng.choice([4, 8, 15]),
            "timeout": rng.choice([0, 0, 0.3, 2]), "inject": rng.choice([1, 4, 12]) if self.liars else 0,
            "lead": rng.choice([0, 4, 12]) if self.liars else 0,
            "spoil": rng.choice([0, 2, 6]), "stray": rng.choice([0, 1]),
        }
        if prunes:
            self._plan_prunings()
        if self.weights["lead"]:
            self.weights["timeout"] = rng.choice([0.3, 1, 3])
        if grounds:
            self._plan_grounds()

    def _plan_grounds(self):
        """Mostly frames come, so that what lacks are certificates."""
        rng = self.rng
        self.weights["offer"], self.weights["gather"] = rng.choice([3, 10, 20]), rng.choice([1, 3, 6])
        self.weights["guide"], self.weights["ask"] = rng.choice([0, 1, 3]), rng.choice([0, 1, 3])
        self.weights["half"] = rng.choice([4, 8, 15]) if any(liar.party < FIRST_CLIENT for liar in self.liars) else 0
        if rng.random() < 0.7:
            self.loss, self.lateness = rng.choice([0, 0.02]), rng.choice([1, 4])

    def _plan_prunings(self):
        """Mostly all goes well, so that the chain grows. Old frames come again."""
        rng = self.rng
        self.weights["prune"], self.weights["revive"] = rng.choice([1, 2, 5]), rng.choice([2, 6, 12])
        self.kept = rng.choice([0, 0, 1, 2, 3, 6])      # heights, when a replica prunes as it should
        if rng.random() < 0.8:
            self.loss, self.deaf, self.lateness = rng.choice([0, 0, 0.02]), [], rng.choice([1, 1, 4])
            self.repeat, self.patient = rng.choice([0, 0, 0.05]), True
            self.weights["timeout"] = rng.choice([0, 0, 0.1])

    def _faulty(self, config):
        rng = self.rng
        if rng.random() < 0.3:
            return []
        replicas = rng.sample(range(config.n), rng.randrange(config.f + 1))
        if replicas and 0 not in replicas and rng.random() < 0.5:
            replicas[0] = 0             # the first leader
        clients = rng.sample(range(config.clients), rng.randrange(min(3, config.clients + 1)))
        return replicas + [FIRST_CLIENT + client for client in clients]

    def _most_faulty(self, config):
        """As many replicas as may be, mostly, and some clients."""
        rng = self.rng
        clients = rng.sample(range(config.clients), rng.randrange(min(3, config.clients + 1)))
        replicas = rng.sample(range(config.n), max(1, config.f - rng.choice([0, 0, 0, 1])))
        return replicas + [FIRST_CLIENT + client for client in clients]

    def write(self, length):
        """(heading, events)"""
        while len(self.events) < length:
            kinds = list(self.weights)
            kind = self.rng.choices(kinds, [self.weights[kind] for kind in kinds])[0]
            event = getattr(self, "_" + kind)()
            if event is not None:
                self._happen(event)
        return (self.config.f, self.config.clients, self.faulty), self.events

    def _happen(self, event):
        first = len(self.world.record)
        refused, sent, _ = self.world.happen(event)
        self.events.append(event)
        if refused == Fault.BAD_TAG and isinstance(event, (Relay, Inject)) and event.party < FIRST_CLIENT:
            source = event.frame if isinstance(event, Relay) else event.data
            self.refused = self.refused[-20:] + [(source, event.party)]
        if self.past and event.party in self.world.replicas:
            self._remember(self.world.replicas[event.party].tree)
        for at, frame in enumerate(sent):
            parties = range(self.config.n) if frame.to == ALL else [frame.to]
            self.waiting += [(first + at, party) for party in parties if self.rng.random() >= self.loss]

    def _remember(self, tree):
        """The block that a replica took last, with all below it."""
        block = tree.blocks[next(reversed(tree.blocks))]
        if block.digest not in self.past:
            parent, justified = self.past[block.core.parent], self.past[block.justified_digest]
            self.past[block.digest] = Block(block.digest, block.core, block.cert, True, parent, justified)

    def _any_party(self):
        return self.rng.choice(self.config.parties())

    def _bring(self):
        """What was sent comes, not quite in order."""
        while self.waiting:
            at = self.rng.randrange(min(self.lateness, len(self.waiting)))
            frame, party = self.waiting[at]
            if self.rng.random() >= self.repeat:
                del self.waiting[at]
            if party in self.deaf and self.rng.random() < 0.8:
                continue
            if self.rng.random() < self.old:
                return Inject(party, respelled(self.world.record[frame].data, 1))
            return Relay(frame, party)
        return self._beat_now()

    def _submit(self):
        """Mostly of a client that has nothing outstanding."""
        clients = range(self.config.clients)
        free = [client for client in clients if client in self.world.sessions
                and not self.world.sessions[client].outstanding]
        chosen = free if free and self.rng.random() < 0.9 else clients
        return Submit(self.rng.choice(chosen), random_request(self.rng).canonical())

    def _beat(self):
        return self._bring() if self.patient and self.waiting else self._beat_now()

    def _beat_now(self):
        views = [replica.pacemaker.view for replica in self.world.replicas.values()]
        leader = self.rng.choice(views) % self.config.n
        return Beat(leader if self.rng.random() < 0.9 else self.rng.randrange(self.config.n))

    def _timeout(self):
        """Of one replica, or of all in turn."""
        if self.rng.random() < 0.5:
            for replica in range(self.config.n - 1):
                self._happen(Timeout(replica))
            return Timeout(self.config.n - 1)
        return Timeout(self.rng.randrange(self.config.n))

    def _prune(self):
        """Of one replica, or of all in turn: some heights below what was executed last, or anything."""
        if self.rng.random() < 0.2:
            for replica in sorted(self.world.replicas):
                self._happen(Prune(replica, max(0, self._executed(replica) - self.kept)))
        replica = self.rng.randrange(self.config.n)
        top = self._executed(replica)
        some = [0, 1, top // 2, top + 1, top + 5, 2 ** 58, TOP]
        height = top - self.kept if self.rng.random() < 0.8 else self.rng.choice(some)
        return Prune(replica, max(0, height))

    def _revive(self):
        """A frame that speaks of a block, of the older half of those that were sent, comes to any replica."""
        kinds = self.rng.choice([(Kind.PROPOSAL,), (Kind.VOTE,), (Kind.NEW_VIEW,), (Kind.FETCH, Kind.BLOCK)])
        found = [at for at, sent in enumerate(self.world.record) if kind_of(sent.data) in kinds]
        if not found:
            return None
        return Relay(self.rng.choice(found[:len(found) // 2 + 1]), self.rng.randrange(self.config.n))

    def _executed(self, replica):
        return self.world.replicas[replica].executed.height if replica in self.world.replicas else 0

    def _inject(self):
        """A faulty party's own frame, to one party, sometimes to all in a row."""
        liar = self.rng.choice(self.liars)
        to = self._any_party()
        data = liar.frame(self.world, to)
        if self.rng.random() < 0.4 and liar.party < FIRST_CLIENT or liar.party >= FIRST_CLIENT:
            for other in self.rng.sample(range(self.config.n), self.rng.randrange(self.config.n)):
                self._happen(Inject(other, data))
        return Inject(to, data)

    def _lead(self):
        """A faulty leader's next proposal, to one replica after the other."""
        led = {}
        for replica in self.world.replicas.values():
            led[replica.pacemaker.leader()] = replica.pacemaker.view
        liars = [liar for liar in self.liars if liar.party in led]
        if not liars:
            return None
        liar = self.rng.choice(liars)
        data = liar.next_proposal(self.world, led[liar.party])
        *others, last = self.rng.sample(sorted(self.world.replicas), len(self.world.replicas))
        for replica in others:
            if self.rng.random() >= self.loss:
                self._happen(Inject(replica, data))
        self._happen(Inject(last, data))
        return Inject(last, liar.question(last, self.world.replicas[last].highest.digest))

    def _half(self):
        """A correct leader proposes. Liars vote first, rightly for it alone, then others do; others may hear of the
        votes. It proposes again, which those refuse that didn't."""
        rng, replicas = self.rng, self.world.replicas
        leaders = sorted({replica.pacemaker.leader() for replica in replicas.values()} & replicas.keys())
        leader = rng.choice(leaders) if leaders else None
        for proposal in self._sent(Beat(leader)) if leaders else ():
            digest = frames.read(self.config, self.world.record[proposal].data).core.digest()
            votes = self._sent(Relay(proposal, leader))
            for liar in self.liars:
                if liar.party < FIRST_CLIENT and rng.random() < 0.7:
                    self._happen(Inject(leader, liar.half_vote(digest, leader)))
            for replica in sorted(replicas.keys() - {leader}):
                votes += self._sent(Relay(proposal, replica)) if rng.random() < 0.9 else []
            hearers = [leader] + rng.sample(sorted(replicas), rng.choice([0, 1, 1, 2, len(replicas)]))
            for vote in [number for number in votes if kind_of(self.world.record[number].data) == Kind.VOTE]:
                for hearer in hearers:
                    self._happen(Relay(vote, hearer))
            for again in self._sent(Beat(leader)):
                for replica in rng.sample(sorted(replicas), len(replicas)):
                    self._happen(Relay(again, replica))
        return Timeout(leader) if leaders and rng.random() < 0.1 else None

    def _sent(self, event):
        """The numbers of the frames that are sent in an event."""
        first = len(self.world.record)
        self._happen(event)
        return list(range(first, len(self.world.record)))

    def _offer(self):
        """Mostly what was refused for a tag, to whoever refused it, but also anything."""
        rng, to = self.rng, self.rng.randrange(self.config.n)
        if self.refused and rng.random() < 0.8:
            source, to = self.refused.pop(rng.randrange(len(self.refused)))
            return Offer(to, source)
        liars = [liar for liar in self.liars if liar.party < FIRST_CLIENT]
        if liars and rng.random() < 0.5:
            return Offer(to, rng.choice(liars).frame(self.world, to))
        kinds = OFFERED if rng.random() < 0.9 else tuple(Kind)
        found = [at for at, sent in enumerate(self.world.record) if kind_of(sent.data) in kinds]
        return Offer(to, rng.choice(found)) if found else None

    def _gather(self):
        """A block, mostly one that a replica lacks, of others that were asked for it, and of liars."""
        rng, to = self.rng, self.rng.choice(sorted(self.world.replicas))
        digest, holders = self._some_block(to)
        if digest is None:
            return None
        few = min(len(holders), self.config.f + rng.choice([-1, 0, 1, 1, 1, 1]))
        sources = [answer for holder in rng.sample(holders, max(0, few)) for answer in self._asked(to, holder, digest)]
        liars = [liar for liar in self.liars if liar.party < FIRST_CLIENT and rng.random() < 0.5]
        block = self.world.replicas[holders[0]].tree.get(digest)
        sources += [liar.copy(self.world, to, block) for liar in liars if block]
        if rng.random() < 0.1 and self.world.record:
            sources.append(rng.choice([b"", b"x", rng.randrange(len(self.world.record)), *sources]))
        rng.shuffle(sources)
        return Gather(to, tuple(sources)) if sources else None

    def _some_block(self, to):
        """The digest of a block above genesis, and which others have it; mostly of the lowest that a replica lacks."""
        trees = {number: replica.tree for number, replica in self.world.replicas.items() if number != to}
        blocks = {block.digest: block.height for tree in trees.values() for block in tree.blocks.values() if block.core}
        lacking = [digest for digest in blocks if not self.world.replicas[to].tree.get(digest)]
        if not blocks:
            return None, []
        some = sorted(lacking if lacking and self.rng.random() < 0.9 else blocks, key=lambda d: (blocks[d], d))
        digest = some[0] if self.rng.random() < 0.7 else self.rng.choice(some)
        return digest, sorted(number for number, tree in trees.items() if tree.get(digest))

    def _asked(self, to, holder, digest):
        """The number of the block that a replica is sent, if any, once it asked."""
        answers = [self._sent(Relay(question, holder)) for question in self._sent(Ask(to, holder, digest))]
        return [number for sent in answers for number in sent if kind_of(self.world.record[number].data) == Kind.BLOCK]

    def _guide(self):
        """Whoever leads, or leads next, is to lead from its lock, from its highest certificate's block or from any."""
        rng, replicas = self.rng, self.world.replicas
        views = [replica.pacemaker.view for replica in replicas.values()]
        number = (max(views) + rng.randrange(2)) % self.config.n
        replica = replicas.get(number) or replicas[rng.choice(sorted(replicas))]
        highest = replica.highest_block
        some = [replica.lock, highest, highest.justified or highest, rng.choice(list(replica.tree.blocks.values()))]
        return Lead(replica.me, rng.choice(some).digest if rng.random() < 0.95 else bytes(32))

    def _ask(self):
        """Anyone is asked for anything."""
        digest, _ = self._some_block(min(self.world.replicas))
        some = digest if digest and self.rng.random() < 0.9 else bytes(32)
        return Ask(self.rng.randrange(self.config.n), self.rng.randrange(self.config.n), some)

    def _spoil(self):
        """A frame that was sent, cut short, made longer, changed in a byte or spelled in version 1, maybe changed
        then; or as it is, to anyone."""
        rng = self.rng
        if not self.world.record:
            return None
        data = rng.choice(self.world.record).data
        if rng.random() < 0.3:
            data = respelled(data, 1)
        at = rng.randrange(len(data))
        how = rng.randrange(6)
        if how == 0:
            data = data[:at]
        elif how == 1:
            data = data[:at] + bytes([data[at] ^ (1 << rng.randrange(8))]) + data[at + 1:]
        elif how == 2:
            at = min(at, 60)
            data = data[:at] + bytes([rng.randrange(256)]) + data[at + 1:]
        elif how == 3:
            data = data + bytes([rng.randrange(256)])
        elif how == 4:
            data = bytes([rng.choice([0, 1, 5, 7, 8, 129, 130, 131])]) + data[rng.randrange(2):]
        return Inject(self._any_party(), data)

    def _stray(self):
        """Any frame of the record to any party."""
        if not self.world.record:
            return None
        return Relay(self.rng.randrange(len(self.world.record)), self._any_party())


def _refused(rng, head, events, prunes, grounds):
    """A schedule that is refused as a whole, or whose last event ends the run."""
    f, clients, faulty = head
    how = rng.randrange(5)
    if how == 0:
        return (rng.choice([0, 11, 2 ** 64 - 1]), clients, faulty), events
    if how == 1:
        return (f, rng.choice([0, 65, 2 ** 63]), faulty), events
    if how == 2:
        return (f, clients, [3 * f + 1 + rng.randrange(3)]), events
    if how == 3:
        return (f, clients, list(range(f + 1 + rng.randrange(2)))), events
    some = [Relay(10 ** 6, 0), Relay(0, 3 * f + 1), Submit(clients, b"get a\r\n"),
            Submit(0, b"quit\r\n"), Submit(0, b"get a \r\n"), Submit(200, b"quit\r\n"),
            Timeout(255), Beat(3 * f + 1),
            Inject(FIRST_CLIENT + clients, b""), Relay(2 ** 64 - 1, FIRST_CLIENT + clients)]
    some += [Prune(3 * f + 1, 0), Prune(255, TOP)] if prunes else []
    some += [Offer(3 * f + 1, 0), Offer(0, 10 ** 6), Gather(0, (b"", 10 ** 6)), Gather(255, (b"x",)),
             Lead(3 * f + 1, GENESIS), Ask(0, 3 * f + 1, GENESIS), Ask(3 * f + 1, 0, GENESIS)] if grounds else []
    last = rng.choice(some)
    at = rng.randrange(len(events) + 1)
    return head, events[:at] + [last] + events[at:]


def random_schedule(seed, longest=400, clients=None, prunes=PRUNES, grounds=GROUNDS, faults=None):
    """(heading, events), decided by the seed, by whether replicas prune, and by whether blocks may be taken on grounds;
    with so many clients, and so many faults, where that is said."""
    rng = random.Random(seed)
    length = rng.choice([40, 200, longest, longest] if prunes else [5, 40, 120, 200, longest])
    writer = Writer(rng, clients, prunes, grounds=grounds, faults=faults)
    head, events = writer.write(length * max(1, writer.config.n // 8) if grounds else length)
    return _refused(rng, head, events, prunes, grounds) if rng.random() < 0.06 else (head, events)
