"""A replica that never forgets: all it does is read off its whole chronicle, step by step from the first, by
the definitions of docs/SCHEDULES.md. It is slow, and keeps every block; what stands after a pruning is found
by a filter over all that was ever taken. A replica that forgets has to answer as this one does (`twins`)."""
from dataclasses import dataclass
from functools import cached_property

from . import blocks
from .cache import Cache
from .checks import good_votes
from .frames import GENESIS, MOST_COMMANDS, Certificate, Core, Kind
from .own_frames import OwnFrames
from .replica import MOST_PENDING, Answer
from .sizes import TOP, Fault, Refusal
from .tags import Keyring


class Branch:
    """A block on its whole branch; genesis has no core, and justifies itself."""

    def __init__(self, core=None, cert=None, clear=True, parent=None):
        self.core = core
        self.cert = cert
        self.clear = clear
        self.parent = parent
        self.height = parent.height + 1 if core else 0
        self.digest = core.digest() if core else GENESIS
        self.justified = parent.at(core.justify) if core else self
        self.history = parent.history + core.commands if core else ()       # first commands first

    def at(self, height):
        block = self
        while block.height > height:
            block = block.parent
        return block

    def extends(self, other):
        return self.at(other.height) is other

    @cached_property
    def answers(self):
        """What the sequential cache answers to the fresh commands of the history."""
        cache, last, told = Cache(), {}, []
        for place, command in enumerate(self.history, 1):
            if command.seq > last.get(command.client, 0):
                last[command.client] = command.seq
                told.append(Answer(command.client, command.seq, place, cache.answer(command.payload)))
        return told


ROOT = Branch()


# ---- what a replica took in, one step each

@dataclass(frozen=True)
class TookBlock:
    branch: Branch
    new: bool
    voted: bool


@dataclass(frozen=True)
class GotVote:
    vote: object
    branch: Branch


@dataclass(frozen=True)
class GotNewView:
    view: int
    sender: int
    cert: Certificate
    branch: Branch


@dataclass(frozen=True)
class SeenView:
    view: int
    sender: int


@dataclass(frozen=True)
class LedFrom:
    branch: Branch


@dataclass(frozen=True)
class GotRequest:
    command: object


@dataclass(frozen=True)
class GotFetch:
    pass


@dataclass(frozen=True)
class TimedOut:
    pass


@dataclass(frozen=True)
class Beaten:
    pass


@dataclass(frozen=True)
class Pruned:
    height: int


def first_of_greatest(found):
    """The first of the greatest height, of branches in the order in which they came; genesis comes first."""
    highest = ROOT
    for branch in found:
        if branch.height > highest.height:
            highest = branch
    return highest


def is_decision(branch):
    """The three blocks below it stand in direct succession, each justified by the next."""
    third = branch.justified
    second = third.justified
    return second.height == second.justified.height + 1 and third.height == second.height + 1


def decided_by(branch):
    return branch.justified.justified.justified


class Chronicle:
    """The steps of a replica up to this one, and what they say."""

    def __init__(self, me, config, step=None, earlier=None):
        self.me = me
        self.config = config
        self.step = step
        self.earlier = earlier
        self.steps = earlier.steps + [step] if earlier else []

    def then(self, step):
        return Chronicle(self.me, self.config, step, self)

    def of(self, kind):
        return [step for step in self.steps if isinstance(step, kind)]

    # ---- blocks

    @cached_property
    def taken(self):
        """All blocks that were ever new."""
        return [step.branch for step in self.of(TookBlock) if step.new]

    @cached_property
    def voted_height(self):
        return max((step.branch.height for step in self.of(TookBlock) if step.voted), default=0)

    @cached_property
    def lock(self):
        return first_of_greatest(branch.justified.justified for branch in self.taken)

    @cached_property
    def executed(self):
        return first_of_greatest(decided_by(branch) for branch in self.taken if is_decision(branch))

    def is_decided_against(self, branch):
        """What it decides neither extends the last executed block nor is extended by it."""
        first = decided_by(branch)
        on_one = first.extends(self.executed) or self.executed.extends(first)
        return is_decision(branch) and not on_one

    @cached_property
    def horizon(self):
        if not self.earlier:
            return 0
        if isinstance(self.step, Pruned):
            return max(self.earlier.horizon, min(self.step.height, self.earlier.executed.height))
        return self.earlier.horizon

    @cached_property
    def standing(self):
        """The blocks of the window, without genesis."""
        return [branch for branch in self.taken if branch.height + 2 >= self.horizon]

    def find(self, digest):
        return next((branch for branch in self.standing + [ROOT] if branch.digest == digest), None)

    # ---- views, votes and certificates

    @cached_property
    def reached(self):
        """The greatest view that more than f replicas have announced or passed."""
        said = [(step.sender, step.view) for step in self.steps if isinstance(step, (GotNewView, SeenView))]
        views = [view for _, view in said
                 if len({sender for sender, other in said if other >= view}) > self.config.f]
        return max(views, default=0)

    @cached_property
    def view(self):
        if not self.earlier:
            return 0
        if isinstance(self.step, TimedOut):
            return min(self.earlier.view + 1, TOP)
        if isinstance(self.step, (GotNewView, SeenView)):
            return max(self.earlier.view, self.reached)
        return self.earlier.view

    @property
    def leads(self):
        return self.view % self.config.n == self.me

    @cached_property
    def last_lead(self):
        """How many steps there were up to the last lead."""
        return max((at for at, step in enumerate(self.steps, 1) if isinstance(step, LedFrom)), default=0)

    def votes(self, branch):
        """Those kept for a block since the last lead: one a voter, a quorum at most."""
        kept = {}
        came = [step for step in self.steps[self.last_lead:] if isinstance(step, GotVote)]
        for vote in [step.vote for step in came if step.branch is branch]:
            if vote.voter not in kept and len(kept) < self.config.quorum:
                kept[vote.voter] = vote
        return kept

    @cached_property
    def raised(self):
        """The certificate that the last step brings or completes, with its block."""
        step = self.step
        if isinstance(step, TookBlock) and step.new:
            return step.branch.justified, step.branch.cert
        if isinstance(step, GotNewView):
            return step.branch, step.cert
        if isinstance(step, GotVote) and len(self.earlier.votes(step.branch)) < self.config.quorum:
            votes = self.votes(step.branch)
            if len(votes) == self.config.quorum:
                return step.branch, Certificate(step.branch.digest, tuple(votes[v] for v in sorted(votes)))
        return None

    @cached_property
    def highest(self):
        """The first certificate of the greatest height, with its block, since the last lead. One without votes gives
        way to another for its block that comes with a block or an announcement."""
        if not self.earlier:
            return ROOT, Certificate(GENESIS)
        before, cert = self.earlier.highest
        if isinstance(self.step, LedFrom):
            led = self.step.branch
            return (before, cert) if led is before else (led, Certificate(led.digest))
        if not self.raised:
            return before, cert
        came = not isinstance(self.step, GotVote)
        fills = came and self.raised[0] is before and before.core and not cert.votes
        return self.raised if self.raised[0].height > before.height or fills else (before, cert)

    # ---- grounds

    def is_justified(self, branch):
        return any(other.justified is branch for other in self.standing)

    def own_counted(self, keyring):
        return [vote.voter for vote in good_votes(keyring, self.highest[1])]

    def is_own_certified(self, branch, keyring):
        return self.highest[0] is branch and len(self.own_counted(keyring)) >= self.config.quorum

    def has_grounds(self, branch, keyring):
        return self.is_justified(branch) or self.is_own_certified(branch, keyring)

    # ---- requests, and what to propose

    @cached_property
    def last_seqs(self):
        last = {}
        for command in self.executed.history:
            last[command.client] = max(last.get(command.client, 0), command.seq)
        return last

    def is_due(self, command):
        return command.seq > self.last_seqs.get(command.client, 0)

    @cached_property
    def pending(self):
        """Requests in order of arrival that aren't overtaken by the history."""
        if not self.earlier:
            return []
        if isinstance(self.step, LedFrom):
            return []
        waiting = list(self.earlier.pending)
        if isinstance(self.step, GotRequest) and not is_among(self.step.command, waiting):
            waiting.append(self.step.command)
        return [command for command in waiting if self.is_due(command)]

    def picks(self, branch):
        """Pending requests that don't stand on the branch above the horizon."""
        above = branch.history[len(branch.at(self.horizon).history):]
        return tuple([command for command in self.pending if not is_among(command, above)][:MOST_COMMANDS])

    @cached_property
    def child(self):
        """The block that a beat makes on the leaf, with its certificate."""
        leaf, (justified, cert) = self.leaf, self.highest
        known = self.find(leaf[0])
        if not self.leads or known is None:
            return None
        return Core(leaf[0], leaf[1] + 1, justified.height, self.picks(known)), cert

    @cached_property
    def leaf(self):
        """Digest and height of the block that the next proposal stands on."""
        if not self.earlier:
            return GENESIS, 0
        if isinstance(self.step, Beaten) and self.earlier.child:
            core, _ = self.earlier.child
            return core.digest(), core.height
        branch, _ = self.highest
        if isinstance(self.step, LedFrom):
            return branch.digest, branch.height
        if branch.height > self.earlier.highest[0].height:
            return branch.digest, branch.height
        return self.earlier.leaf

    @cached_property
    def proposed(self):
        """The own last block, with its certificate."""
        if not self.earlier:
            return None
        return isinstance(self.step, Beaten) and self.earlier.child or self.earlier.proposed


def is_among(command, commands):
    return any((command.client, command.seq) == (other.client, other.seq) for other in commands)


class WholeReplica:
    """What a replica answers, by its whole chronicle."""

    def __init__(self, config, me):
        self.config = config
        self.me = me
        self.keyring = Keyring(config, me)
        self.own = OwnFrames(self.keyring)
        self.chronicle = Chronicle(me, config)
        self.stopped = False

    # ---- inputs: each answers a list of (destination, frame's bytes), or refuses

    def receive(self, checked):
        frame = checked.frame
        if frame.kind == Kind.PROPOSAL:
            return self._input(self._take_block, checked, frame.view % self.config.n, frame.view)
        if frame.kind == Kind.BLOCK:
            return self._input(self._take_block, checked, frame.sender, None)
        if frame.kind == Kind.VOTE:
            return self._input(self._vote, frame)
        if frame.kind == Kind.NEW_VIEW:
            return self._input(self._new_view, frame)
        if frame.kind == Kind.REQUEST:
            return self._input(self._request, frame.command)
        return self._input(self._fetch, frame)

    def offered(self, checked):
        frame = checked.frame
        if frame.kind == Kind.NEW_VIEW:
            return self._input(self._seen_view, frame)
        if frame.kind == Kind.PROPOSAL:
            return self._input(self._take_offered, checked, frame.view % self.config.n, frame.view)
        return self._input(self._take_offered, checked, frame.sender, None)

    def gathered(self, copies):
        return self._input(self._take_gathered, copies)

    def lead(self, digest):
        return self._input(self._lead, digest)

    def ask(self, to, digest):
        return self._input(self._ask, to, digest)

    def timeout(self):
        return self._input(self._timeout)

    def beat(self):
        return self._input(self._beat)

    def prune(self, height):
        return self._input(self._prune, height)

    def _input(self, rule, *given):
        """A rule answers the step that is to stand and what goes out then, or refuses."""
        if self.stopped:
            raise Refusal(Fault.STOPPED)
        try:
            after, out = rule(self.chronicle, *given)
        except Refusal as refusal:
            unpruned = self.chronicle.horizon == 0
            self.stopped = refusal.fault == Fault.CONFLICT or (refusal.fault == Fault.FULL and unpruned)
            raise
        self.chronicle = after
        return out

    def _find(self, now, digest, sender):
        branch = now.find(digest)
        if branch is None:
            raise self._unknown(sender, digest)
        return branch

    def _unknown(self, sender, digest):
        return Refusal(Fault.UNKNOWN_PARENT, None if sender in (None, self.me) else (sender, digest))

    def _place(self, now, checked, sender):
        """(branch, whether it is new), by the tests in their order."""
        core, cert = checked.frame.core, checked.frame.cert
        known = now.find(core.digest())
        if (known.justified.height if known else core.justify) < now.horizon:
            raise Refusal(Fault.PRUNED)
        if known:
            if cert.digest != known.justified.digest:
                raise Refusal(Fault.WRONG_JUSTIFY)
            return known, False
        parent = self._find(now, core.parent, sender)
        if core.height != parent.height + 1:
            raise Refusal(Fault.BAD_HEIGHT)
        branch = Branch(core, cert, checked.clear, parent)
        if cert.digest != branch.justified.digest:
            raise Refusal(Fault.WRONG_JUSTIFY)
        if sum(other.height == branch.height for other in now.standing) >= blocks.MOST_OF_ONE_HEIGHT:
            raise Refusal(Fault.CROWDED)
        if 1 + len(now.standing) >= blocks.MOST_BLOCKS or branch.height >= 2 ** 58:
            raise Refusal(Fault.FULL)
        return branch, True

    def _votes_for(self, now, branch, view):
        """Whether a proposal of that view gets a vote."""
        safe = branch.extends(now.lock) or branch.justified.height > now.lock.height
        between = branch
        while between.height > branch.justified.height and between.clear:
            between = between.parent
        clear = between.height <= branch.justified.height
        return view == now.view and branch.height > now.voted_height and safe and clear

    def _take_block(self, now, checked, sender, view):
        branch, new = self._place(now, checked, sender)
        return self._take(now, branch, new, sender, view)

    def _take_offered(self, now, checked, sender, view):
        """A new block needs grounds for what it justifies: a standing block that justifies it too, or the own
        certificate, which is kept then."""
        branch, new = self._place(now, checked, sender)
        justified = branch.justified
        if new and not now.has_grounds(justified, self.keyring):
            raise Refusal(Fault.BAD_TAG)
        if new:
            own = now.highest[1]
            branch.cert = Certificate(justified.digest) if now.is_justified(justified) else own
        return self._take(now, branch, new, sender, view)

    def _take_gathered(self, now, copies):
        """A new block needs more than f senders, each once."""
        branch, new = self._place(now, copies, None)
        senders = copies.senders
        if new and (len(senders) <= self.config.f or any(senders.count(sender) > 1 for sender in senders)):
            raise Refusal(Fault.BAD_TAG)
        if new:
            branch.cert = Certificate(branch.justified.digest)
        return self._take(now, branch, new, None, None)

    def _take(self, now, branch, new, sender, view):
        if new and now.is_decided_against(branch):
            raise Refusal(Fault.CONFLICT)
        voted = view is not None and self._votes_for(now, branch, view)
        after = now.then(TookBlock(branch, new, voted))
        out = [self.own.vote(sender, branch.digest)] if voted else []
        told = after.executed.answers[len(now.executed.answers):]
        return after, out + [self.own.reply(answer) for answer in told]

    def _vote(self, now, frame):
        return now.then(GotVote(frame.vote, self._find(now, frame.digest, frame.vote.voter))), []

    def _new_view(self, now, frame):
        branch = self._find(now, frame.cert.digest, frame.sender)
        after = now.then(GotNewView(frame.view, frame.sender, frame.cert, branch))
        return after, [self._announcement(after)] if after.view > now.view else []

    def _seen_view(self, now, frame):
        after = now.then(SeenView(frame.view, frame.sender))
        return after, [self._announcement(after)] if after.view > now.view else []

    def _lead(self, now, digest):
        branch = now.find(digest)
        if branch is None or branch.height < now.lock.height or not now.has_grounds(branch, self.keyring):
            raise Refusal(Fault.UNKNOWN_PARENT)
        return now.then(LedFrom(branch)), []

    def _ask(self, _now, to, digest):
        raise self._unknown(to, digest)

    def _announcement(self, after):
        return self.own.new_view(after.view, after.highest[1])

    def _request(self, now, command):
        is_new = now.is_due(command) and not is_among(command, now.pending)
        if is_new and len(now.pending) >= MOST_PENDING:
            raise Refusal(Fault.POOL_FULL)
        again = [answer for answer in now.executed.answers
                 if (answer.client, answer.seq) == (command.client, command.seq)]
        out = again if command.seq == now.last_seqs.get(command.client, 0) else []
        return now.then(GotRequest(command)), [self.own.reply(answer) for answer in out]

    def _fetch(self, now, frame):
        found = now.find(frame.digest)
        out = [self.own.block(frame.sender, found.core, found.cert)] if found and found.core else []
        return now.then(GotFetch()), out

    def _timeout(self, now):
        after = now.then(TimedOut())
        return after, [self._announcement(after)]

    def _beat(self, now):
        after = now.then(Beaten())
        out = [self.own.proposal(now.view, *after.proposed)] if now.leads and after.proposed else []
        return after, out

    def _prune(self, now, height):
        return now.then(Pruned(height)), []
