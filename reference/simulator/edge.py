"""What stands around a correct replica in a world with time: it brings it frames, sends what it answers, and decides by
the rules of `policy` what is let in, what is offered, who hears its votes, and when a view ends."""
import collections

from . import policy
from .asking import Questions
from .checks import has_own_tag
from .doorkeeper import Doorkeeper
from .frames import Kind, kind_of
from .leading import Leading
from .own_frames import ALL
from .sizes import FIRST_CLIENT, Fault
from .world import Ask, Inject, Lead, Offer, Relay, Timeout


class Edge:
    def __init__(self, town, me, options):
        self.town, self.me, self.options = town, me, options
        self.replica = town.world.replicas[me]
        self.config, self.tree = self.replica.config, self.replica.tree
        self.n, self.f, self.times = self.config.n, self.config.f, town.times
        self.door = Doorkeeper(self.n, options.most_climb, options.pace)
        self.questions, self.leading = Questions(self), Leading(self)
        self.trouble_until = self.careful_until = -1
        self.requests = {}                                      # client -> (item, frame) of its last request
        self.vouchers = {}                                      # client -> who else has that request
        self.questions_for = {}                                 # (client, replica) -> the request that it passed on
        self.passed_on = {}                                     # client -> when its request was passed on last
        self.claims = {}                                        # replica -> the digest that it announced last
        self.votes_kept = collections.defaultdict(dict)         # voter -> digest -> item
        self.vote = None                                        # to be sent at the end of this tick, to all
        self.announcement = None
        self.answered = {}                                      # replica -> when it was told our view
        self.taken = collections.deque()                        # blocks for which others may wait, the first in hand
        self.early = []                                         # proposals of later views
        self.bad_views = 0
        self.length = 0                                         # of the history
        self.served = {}                                        # client -> when it last waited for nothing
        self.ended = collections.Counter()                      # client -> views that ended since, for it alone
        self._enter()

    @property
    def now(self):
        return self.town.now

    @property
    def view(self):
        return self.replica.pacemaker.view

    # ---- events, and what is sent

    def do(self, event, sends=True):
        """The refusal or None. What was answered is sent, but for a refusal's question: `Questions` asks."""
        refused, sent, _ = self.town.world.happen(event)
        first = len(self.town.world.record) - len(sent)
        for number, frame in enumerate(sent if sends else (), first):
            self._send(number, frame, isinstance(event, Ask))
        if self.view != self.seen:
            self._moved()
        return refused

    def _send(self, number, sent, asks):
        kind = kind_of(sent.data)
        if kind == Kind.VOTE and self.in_trouble():
            self.vote = number
        elif kind != Kind.FETCH or asks:
            if kind == Kind.NEW_VIEW:
                self.announcement = number
            self.town.send(self.me, number, sent.to)

    def send_vote(self):
        """Of the votes of a tick the last one goes to all, in trouble."""
        if self.vote is not None:
            self.town.send(self.me, self.vote, ALL)
            self.vote = None

    def has(self, rule):
        """Whether a rule is in force."""
        return rule not in self.options.without

    def in_trouble(self):
        return self.now <= self.trouble_until and self.has("votes to all")

    def meet_trouble(self):
        self.trouble_until = self.now + (self.times.trouble if self.has("lasting trouble") else self.times.attempt)

    def is_careful(self):
        """Blocks were seen a short while ago that have spoilt requests."""
        return self.now <= self.careful_until and self.has("turns")

    def meet_spoilt(self):
        self.careful_until = self.now + self.times.trouble

    def bring(self, item):
        """A frame comes, and is offered where only its certificate isn't good here: the refusal or None."""
        refused = self.do(self._coming(item))
        if refused == Fault.BAD_TAG and self.has("offers") and self._is_its_own(item):
            refused = self.do(Offer(self.me, item))
        return refused

    def _coming(self, item):
        return Relay(item, self.me) if isinstance(item, int) else Inject(self.me, item)

    def _is_its_own(self, item):
        return has_own_tag(self.replica.keyring, self.town.frame(item))

    # ---- frames that come

    def handle(self, source, item):
        frame = self.town.frame(item)
        if frame is None:
            return
        if frame.kind == Kind.PROPOSAL:
            self._on_proposal(item, frame)
        elif frame.kind == Kind.BLOCK:
            self.questions.came(item, frame)
        elif frame.kind == Kind.VOTE:
            self._on_vote(item, frame)
        elif frame.kind == Kind.NEW_VIEW:
            self._on_announcement(item, frame)
        elif frame.kind == Kind.REQUEST:
            self._on_request(source, item, frame)
        else:
            self.do(self._coming(item))

    def _on_proposal(self, item, frame):
        """Those of later views wait for these, others are lost."""
        if frame.view > self.view and len(self.early) < policy.MOST_PARKED:
            self.early.append((item, frame))
        leader = frame.view % self.n
        if frame.view == self.view and (leader == self.me or self.door.lets_in(self.now, leader, frame)):
            self._try_proposal(item, frame)

    def _try_proposal(self, item, frame):
        digest, leader = frame.core.digest(), frame.view % self.n
        new = self.tree.get(digest) is None
        refused = self.bring(item)
        if refused is None:
            if new:
                self.door.took(leader, frame.core.height)
                self.after_take(digest)
        elif refused == Fault.UNKNOWN_PARENT and leader != self.me:
            self.questions.need_below(frame, leader, leader)
            self._park(item, frame)
        elif refused == Fault.BAD_TAG and self._is_its_own(item):
            self.meet_trouble()
            self.questions.need(digest, leader)
            self._park(item, frame)

    def _park(self, item, frame):
        if len(self.parked) < policy.MOST_PARKED:
            self.parked[frame.core.digest()] = item, frame

    def retry(self, parent=None):
        """Proposals that wait are tried again: those over a block that came, or all whose parent stands."""
        for digest, (item, frame) in list(self.parked.items()):
            over = frame.core.parent == parent if parent else self.tree.get(frame.core.parent) is not None
            if (over or digest == parent) and self.parked.pop(digest, None) and frame.view == self.view:
                self._try_proposal(item, frame)

    def after_take(self, digest):
        """A block stands: what waited for it comes, and then what waits for that."""
        self.taken.append(digest)
        if len(self.taken) > 1:
            return
        while self.taken:
            self._settle(self.taken[0])
            self.taken.popleft()

    def _settle(self, digest):
        if not self.tree.get(digest).clear:
            self.meet_spoilt()
        for votes in self.votes_kept.values():
            if digest in votes:
                self._on_vote(*votes.pop(digest))
        for child in self.questions.children_of(digest):
            self.questions.try_take(child)
        self.retry(digest)

    def _on_vote(self, item, frame):
        if not self.leading.wants_vote(frame.digest):
            return
        high = self.replica.highest_block
        refused = self.do(self._coming(item))
        if refused == Fault.UNKNOWN_PARENT:
            self._keep_vote(item, frame)
        elif refused is None:
            self.leading.voted(frame.vote.voter, frame.digest)
            if self.parked and self.replica.highest_block is not high:
                self.retry()

    def _keep_vote(self, item, frame):
        """For a block that isn't there. One for which more than f replicas voted is asked for."""
        votes = self.votes_kept[frame.vote.voter]
        votes[frame.digest] = item, frame
        if len(votes) > policy.MOST_VOTES_KEPT:
            del votes[next(iter(votes))]
        if sum(frame.digest in others for others in self.votes_kept.values()) > self.f:
            self.questions.need(frame.digest, frame.vote.voter)

    def _on_announcement(self, item, frame):
        """Its view counts, whatever it names. What it names is asked for by the leader of the view alone. Who repeats
        our view doesn't know that a quorum is there, and hears ours: else its clock never begins where that was lost.
        """
        if not self._is_its_own(item):
            return
        if frame.view < self.view or frame.view == self.view and self.begun is not None:
            self._tell(frame.sender)
        if frame.view > self.view:
            self.meet_trouble()
            self._speak_for_lock()
        if self.leading.holds() or self.do(self._coming(item)) is not None:
            self.do(Offer(self.me, item))
        if frame.view == self.view and frame.sender != self.me:
            self.claims[frame.sender] = frame.cert.digest
            if self.view % self.n == self.me:
                self.questions.need(frame.cert.digest, frame.sender, frame.sender)

    def _tell(self, sender):
        """One that is behind, or waits for a quorum in our view, hears that we are in it."""
        if self.announcement is not None and self.now - self.answered.get(sender, -99) >= self.times.again:
            self.answered[sender] = self.now
            self.town.send(self.me, self.announcement, sender)

    def _on_request(self, source, item, frame):
        """From its client's own link alone. It's handed in by a leader; what was answered is answered again. Another
        replica passes a request on, and says by that alone that it has it."""
        command = frame.command
        if source < self.n:
            self._on_passed(source, item, frame)
        if source != FIRST_CLIENT + command.client or not self._is_its_own(item):
            return
        if command.seq <= self.replica.executor.last_seq(command.client):
            self.do(self._coming(item))
            return
        if not self.has_request(frame):
            self.vouchers[command.client] = set()
            self.passed_on.pop(command.client, None)
        self.requests[command.client] = item, frame
        self.served.setdefault(command.client, self.now)
        for other in range(self.n):
            if self.questions_for.get((command.client, other)) == frame:
                del self.questions_for[command.client, other]
                self.town.pass_on(self.me, item, other)

    def has_request(self, frame):
        """Whether a client's last request came so, tags and all."""
        _, kept = self.requests.get(frame.command.client, (None, None))
        return kept == frame

    def _on_passed(self, source, item, frame):
        """A leader counts who has a request; others pass it back, as soon as they have it."""
        if self.view % self.n == self.me:
            if self.has_request(frame):
                self.vouchers[frame.command.client].add(source)
        elif self.has_request(frame):
            self.town.pass_on(self.me, item, source)
        else:
            self.questions_for[frame.command.client, source] = frame

    def pass_on(self, clients):
        """A leader asks by that who has their requests, again and again, until a quorum has."""
        for client in clients:
            if self.now - self.passed_on.get(client, -self.times.again) >= self.times.again:
                self.passed_on[client] = self.now
                self.town.pass_on(self.me, self.requests[client][0], ALL)

    def is_vouched(self, client):
        return len(self.vouchers[client]) + 1 >= self.config.quorum

    def hand_in(self, client):
        self.do(self._coming(self.requests[client][0]))

    def waiting(self):
        """Clients whose requests weren't executed."""
        last = self.replica.executor.last_seq
        return [client for client, (_, frame) in self.requests.items() if frame.command.seq > last(client)]

    # ---- views

    def _enter(self):
        self.seen, self.entered, self.begun = self.view, self.now, None
        self.parked = {}
        self.leading.enter()

    def _moved(self):
        """The view is another one."""
        self.bad_views += 1
        self.meet_trouble()
        self._enter()
        early, self.early = self.early, []
        for item, _ in early:
            self.town.to_self(self.me, self.me, item)

    def _speak_for_lock(self):
        """What is announced has to speak for the lock: if the highest block justifies a lower one, the highest becomes
        a block over the lock."""
        high, lock = self.replica.highest_block, self.replica.lock
        if high.justify_height >= lock.height:
            return
        justified = [block.justified for block in self.tree.blocks.values() if block.core]
        over = [block for block in justified if block.core and block.justified is lock and block is not lock]
        if over:
            self.do(Lead(self.me, min(over, key=lambda block: block.height).digest))

    def clock(self):
        """Once a tick."""
        if self.replica.executor.length > self.length:
            self.length, self.bad_views, self.progress = self.replica.executor.length, 0, self.now
        self.questions.ask_again()
        waiting = self.waiting()
        for client in self.requests.keys() - waiting:
            self.served[client], self.ended[client] = self.now, 0
        if self.begun is None:
            self._begin()
        elif not waiting:
            self.progress = self.now
        elif self._is_over(waiting):
            self.end_view()
        elif self.view % self.n == self.me:
            self.leading.clock(waiting)

    def patience(self):
        turns = len(self.waiting()) if self.is_careful() else 0
        return policy.patience(self.times, self.f, self.bad_views, turns)

    def _is_over(self, waiting):
        """Nothing was executed for too long, or nothing of one client."""
        patience = self.patience()
        if self.now - max(self.begun, self.progress) > patience:
            return True
        late = [client for client in waiting if self.has("fairness") and policy.is_too_long(
            self.now - max(self.begun, self.served[client]), patience, self.ended[client])]
        self.ended.update(late)
        return bool(late)

    def end_view(self):
        self._speak_for_lock()
        self.do(Timeout(self.me))

    def _begin(self):
        announced = self.replica.pacemaker.announced
        if not self.has("beginnings") or policy.may_begin(announced, self.view, self.config.quorum):
            self.begun = self.progress = self.now
        elif self.announcement is not None and (self.now - self.entered) % self.times.again == 0:
            self.town.send(self.me, self.announcement, ALL)
