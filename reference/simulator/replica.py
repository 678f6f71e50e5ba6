"""One replica: event-driven HotStuff over one sequential cache.

The rules are those of the paper of 2019 (three certified blocks in direct succession decide the first), in
this repository's profile: a block's height is its parent's plus one, the justified block is named by its
height on the block's own branch, and a replica votes over clear blocks alone. A replica that is told to prune
forgets its past: its tree keeps a window, and its chronicle and its history are gone.

A block whose certificate isn't good for this replica is taken where what it justifies has grounds, and is kept
with a certificate without votes.
"""
from dataclasses import dataclass

from .blocks import Tree
from .cache import Cache
from .checks import Copies, good_votes, need
from .frames import GENESIS, MOST_COMMANDS, Certificate, Core, Kind
from .own_frames import OwnFrames
from .sizes import TOP, Fault, Refusal
from .tags import Keyring

MOST_PENDING = 4096


@dataclass(frozen=True)
class Answer:
    """What a client's command was answered, and the command's place in the history."""
    client: int
    seq: int
    place: int
    text: bytes


@dataclass(frozen=True)
class Step:
    """What stands of an input; of a block as it came: its core, the digest of what it justifies, the voters
    that were counted for that, whether the block was new, whether it was voted for, and who sent it, where it was
    taken for their number."""
    core: Core = None
    justified: bytes = b""
    counted: tuple = ()
    new: bool = False
    voted: bool = False
    senders: tuple = ()


@dataclass(frozen=True)
class Kept:
    """What is kept with a block: its certificate, whose votes were counted for it, and who sent the block, where it
    is taken for their number."""
    cert: Certificate
    counted: tuple = ()
    senders: tuple = ()


class Executor:
    """The history, and each client's last answer. A command is fresh where its number exceeds its client's
    earlier ones in the history; only fresh ones are applied and answered."""

    def __init__(self, most_keys):
        self.cache = Cache(most_keys)
        self.history = []           # None once it was forgotten
        self.length = 0
        self.last = {}

    def run(self, commands):
        answers = []
        for command in commands:
            self.length += 1
            if self.history is not None:
                self.history.append((command.client, command.seq, command.payload))
            if command.seq > self.last_seq(command.client):
                text = self.cache.answer(command.payload)
                answers.append(Answer(command.client, command.seq, self.length, text))
                self.last[command.client] = answers[-1]
        return answers

    def last_seq(self, client):
        return self.last[client].seq if client in self.last else 0


class Pacemaker:
    """The view. Timeouts move it on, and so do views that f + 1 replicas have announced or passed."""

    def __init__(self, config):
        self.config = config
        self.view = 0
        self.announced = [0] * config.n

    def leader(self):
        return self.view % self.config.n

    def timeout(self):
        self.view = min(self.view + 1, TOP)

    def on_new_view(self, sender, view):
        """Whether the view moved."""
        self.announced[sender] = max(self.announced[sender], view)
        reached = sorted(self.announced, reverse=True)[self.config.f]
        if reached <= self.view:
            return False
        self.view = reached
        return True


class Replica:
    def __init__(self, config, me):
        self.config = config
        self.me = me
        self.keyring = Keyring(config, me)
        self.own = OwnFrames(self.keyring)
        self.tree = Tree()
        self.lock = self.tree.genesis
        self.voted_height = 0
        self.executed = self.tree.genesis
        self.highest = Certificate(GENESIS)
        self.highest_block = self.tree.genesis
        self.leaf = GENESIS
        self.leaf_height = 0
        self.own_proposal = None
        self.pacemaker = Pacemaker(config)
        self.pending = {}           # (client, seq) -> command, in order of arrival
        self.executor = Executor(config.most_keys)
        self.chronicle = []         # the steps that stand; None once they were forgotten
        self.stopped = False
        self.came = None            # what the step under way brings

    @property
    def history(self):
        return self.executor.history

    # ---- steps: each answers a list of (destination, frame's bytes), or refuses

    def receive(self, checked):
        """Takes a frame whose tags were checked."""
        return self._step({
            Kind.PROPOSAL: self._on_block, Kind.BLOCK: self._on_block, Kind.VOTE: self._on_vote,
            Kind.NEW_VIEW: self._on_new_view, Kind.REQUEST: self._on_request, Kind.FETCH: self._on_fetch,
        }[checked.frame.kind], checked)

    def offered(self, checked):
        """Takes a frame whose own tag was checked, and no certificate."""
        return self._step({
            Kind.PROPOSAL: self._on_offered_block, Kind.BLOCK: self._on_offered_block,
            Kind.NEW_VIEW: self._on_seen_view,
        }[checked.frame.kind], checked)

    def gathered(self, copies):
        """Takes a block that several replicas sent."""
        return self._step(self._on_copies, copies)

    def lead(self, digest):
        """Is to lead from the block of a digest."""
        return self._step(self._on_lead, digest)

    def ask(self, to, digest):
        """Is to ask a replica for the block of a digest."""
        return self._step(self._on_ask, to, digest)

    def timeout(self):
        return self._step(self._on_timeout)

    def beat(self):
        return self._step(self._on_beat)

    def prune(self, height):
        """Lets go what is below the window of this horizon, or of the last executed block's height where that
        is lower. No horizon falls. The first pruning ends the chronicle and the history."""
        return self._step(self._on_prune, height)

    def _step(self, step, *given):
        if self.stopped:
            raise Refusal(Fault.STOPPED)
        self.came = Step()
        try:
            out = step(*given)
        except Refusal as refusal:
            self.stopped = self._stops(refusal.fault)
            raise
        if self.chronicle is not None:
            self.chronicle.append(self.came)
        return out

    def _stops(self, fault):
        """A full tree stops a replica that has no horizon. One with a horizon can prune again."""
        return fault == Fault.CONFLICT or (fault == Fault.FULL and self.tree.horizon == 0)

    def _on_block(self, checked):
        return self._take_in(checked, self._kept_as_it_came)

    def _on_offered_block(self, checked):
        return self._take_in(checked, self._kept_on_grounds)

    def _on_copies(self, copies):
        return self._take_in(copies, self._kept_for_senders)

    def _take_in(self, came, kept_of):
        """A block comes, proposed or on its own. What is kept with it may be refused."""
        sender, view = self._origin(came)
        block, new = self._place(came, sender)
        kept = kept_of(came, block, new)
        decided = self._decided_by(block) if new else None
        voted = view == self.pacemaker.view and self._may_vote(block)
        self.came = Step(came.frame.core, kept.cert.digest, kept.counted, new, voted, kept.senders)
        out = []
        if voted:
            self.voted_height = block.height
            out.append(self.own.vote(sender, block.digest))
        if new:
            block.cert = kept.cert
            out += self._take(block, decided)
        return out

    def _origin(self, came):
        """Who is asked for what lacks, and the view of a proposal. Of copies nobody is."""
        frame = came.frame
        if isinstance(came, Copies):
            return None, None
        if frame.kind == Kind.PROPOSAL:
            return frame.view % self.config.n, frame.view
        return frame.sender, None

    def _on_vote(self, checked):
        digest, vote = checked.frame.digest, checked.frame.vote
        block = self.tree.get(digest)
        if block is None:
            raise self._unknown(vote.voter, digest)
        votes = block.votes
        if vote.voter not in votes and len(votes) < self.config.quorum:
            votes[vote.voter] = vote
            if len(votes) == self.config.quorum:
                self._raise(block, Certificate(digest, tuple(votes[voter] for voter in sorted(votes))))
        return []

    def _on_new_view(self, checked):
        frame = checked.frame
        block = self.tree.get(frame.cert.digest)
        if block is None:
            raise self._unknown(frame.sender, frame.cert.digest)
        self._raise_whole(block, frame.cert)
        return self._on_seen_view(checked)

    def _on_seen_view(self, checked):
        frame = checked.frame
        return [self._new_view()] if self.pacemaker.on_new_view(frame.sender, frame.view) else []

    def _on_request(self, checked):
        command = checked.frame.command
        name = command.client, command.seq
        last = self.executor.last_seq(command.client)
        if command.seq == last:
            return [self.own.reply(self.executor.last[command.client])]
        if command.seq < last or name in self.pending:
            return []
        if len(self.pending) >= MOST_PENDING:
            raise Refusal(Fault.POOL_FULL)
        self.pending[name] = command
        return []

    def _on_fetch(self, checked):
        block = self.tree.get(checked.frame.digest)
        if block is None or block.core is None:
            return []
        return [self.own.block(checked.frame.sender, block.core, block.cert)]

    def _on_timeout(self):
        self.pacemaker.timeout()
        return [self._new_view()]

    def _on_beat(self):
        if self.pacemaker.leader() != self.me:
            return []
        leaf = self.tree.get(self.leaf)
        if leaf is not None:
            self.leaf_height += 1
            core = Core(self.leaf, self.leaf_height, self.highest_block.height, self._picked(leaf))
            self.own_proposal = core, self.highest
            self.leaf = core.digest()
        return [self.own.proposal(self.pacemaker.view, *self.own_proposal)]

    def _on_prune(self, height):
        self.chronicle = None
        self.executor.history = None
        self.tree.prune(max(self.tree.horizon, min(height, self.executed.height)))
        return []

    def _on_lead(self, digest):
        """Leaf and highest certificate are of that block from now on. Votes and requests that wait are forgotten."""
        block = self.tree.get(digest)
        if block is None or block.height < self.lock.height or not self._has_grounds(block):
            raise Refusal(Fault.UNKNOWN_PARENT)
        if block is not self.highest_block:
            self.highest, self.highest_block = Certificate(digest), block
        self.leaf, self.leaf_height = digest, block.height
        self.pending = {}
        for other in self.tree.blocks.values():
            other.votes = {}
        return []

    def _on_ask(self, to, digest):
        raise self._unknown(to, digest)

    # ---- grounds

    def _is_justified(self, block):
        """Some block of the tree justifies it."""
        return any(other.core and other.justified is block for other in self.tree.blocks.values())

    def _own_counted(self):
        """The voters of the highest certificate whose tags for this replica verify."""
        return tuple(vote.voter for vote in good_votes(self.keyring, self.highest))

    def _is_own_certified(self, block):
        """It is the block of the highest certificate, of which this replica counts a quorum."""
        return block is self.highest_block and len(self._own_counted()) >= self.config.quorum

    def _has_grounds(self, block):
        return self._is_justified(block) or self._is_own_certified(block)

    # ---- what is kept with a block: of what came, of the block, and whether it is new

    def _kept_as_it_came(self, checked, _block, _new):
        return Kept(checked.frame.cert, checked.counted)

    def _kept_on_grounds(self, _checked, block, new):
        """A block that stands had grounds. What a new one justifies has to have some."""
        if not new or self._is_justified(block.justified):
            return Kept(Certificate(block.justified_digest))
        need(self._is_own_certified(block.justified))
        return Kept(self.highest, self._own_counted())

    def _kept_for_senders(self, copies, block, new):
        """Of a new block the senders have to be distinct, and more than f."""
        need(not new or len(set(copies.senders)) == len(copies.senders) > self.config.f)
        return Kept(Certificate(block.justified_digest), (), copies.senders if new else ())

    # ---- rules

    def _unknown(self, sender, digest):
        """Somebody else is asked for the block, where somebody is named."""
        return Refusal(Fault.UNKNOWN_PARENT, None if sender in (None, self.me) else (sender, digest))

    def _place(self, came, sender):
        core = came.frame.core
        try:
            return self.tree.place(core, came.frame.cert, came.clear)
        except Refusal as refusal:
            if refusal.fault == Fault.UNKNOWN_PARENT:
                raise self._unknown(sender, core.parent) from None
            raise

    def _may_vote(self, block):
        """It is higher than all voted blocks, safe by the lock, and clear as is its branch above what it
        justifies."""
        if block.height <= self.voted_height:
            return False
        if not block.extends(self.lock) and block.justify_height <= self.lock.height:
            return False
        return all(between.clear for between in block.above(block.justify_height))

    def _raise(self, block, cert):
        """A certificate of a block may be the highest."""
        if block.height > self.highest_block.height:
            self.highest, self.highest_block = cert, block
            self.leaf, self.leaf_height = block.digest, block.height

    def _raise_whole(self, block, cert):
        """One that came whole takes the place of one without votes, too."""
        self._raise(block, cert)
        if block is self.highest_block and block.core and not self.highest.votes:
            self.highest = cert

    def _decided_by(self, block):
        """The block that is to be executed once this one is taken, if any. Heights are compared before a link
        is followed, since what isn't in direct succession may have been pruned."""
        third = block.justified
        if third.height != third.justify_height + 1:
            return None
        second = third.justified
        if second.height != second.justify_height + 1:
            return None
        first = second.justified
        if self.executed.extends(first):
            return None
        if not first.extends(self.executed):
            raise Refusal(Fault.CONFLICT)
        return first

    def _take(self, block, decided):
        """The block joins the tree. What it decides is executed, and answered."""
        self.tree.insert(block)
        self._raise_whole(block.justified, block.cert)
        if block.justified.justify_height > self.lock.height:
            self.lock = block.justified.justified
        if decided is None:
            return []
        answers = []
        for ready in decided.above(self.executed.height):
            answers += self.executor.run(ready.core.commands)
            self._forget_executed(ready.core.commands)
        self.executed = decided
        return [self.own.reply(answer) for answer in answers]

    def _forget_executed(self, commands):
        """An executed command, and those of its client with lower numbers, aren't pending any more."""
        for command in commands:
            for client, seq in [name for name in self.pending if name[0] == command.client]:
                if seq <= command.seq:
                    del self.pending[client, seq]

    def _picked(self, leaf):
        """Pending requests that don't stand on the leaf's branch above the horizon."""
        commands = [command for block in leaf.above(self.tree.horizon) for command in block.core.commands]
        on_branch = {(command.client, command.seq) for command in commands}
        picked = [command for name, command in self.pending.items() if name not in on_branch]
        return tuple(picked[:MOST_COMMANDS])

    def _new_view(self):
        return self.own.new_view(self.pacemaker.view, self.highest)
