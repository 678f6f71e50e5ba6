"""How a replica leads its view when others may lie.

The first attempt is as ever: from the highest certificate. If no certificate comes, and no votes of more than f
others, it leads from its own lock, then from what others claim, one block of each sender in turns; before that, or
before all if more than f others claim what it lacks, it takes what it asked for, as long as that comes in. Each attempt
begins with empty blocks up to above all heights in its tree, of which only the last needs votes; then it climbs on.
"""
from . import policy
from .frames import Core
from .world import Beat, Lead


class Leading:
    def __init__(self, edge):
        self.edge = edge
        self.tried = {}             # digest -> attempts from it, in all views
        self.last_sender = -1       # whose claim had the last turn
        self.failures, self.turns = {}, {}
        self.failed = 0             # blocks with commands in a row that found no certificate

    def enter(self):
        """Another view: nothing was done in it yet."""
        self.started = self.chosen = self.succeeded = self.tried_lock = self.gathered = False
        self.gathers_since = None   # when it began to take what it asked for, while it does
        self._forget_blocks()

    def _forget_blocks(self):
        self.tops = {}              # digest -> who voted for it
        self.clients = set()        # whose commands are in blocks without a certificate
        self.target = 0
        self.step = 1
        self.certified_at = self.votes_at = self.sent_at = self.edge.now

    def holds(self):
        """An attempt from a chosen block is under way: nothing may move the leaf but votes for its blocks."""
        return self.chosen and not self.succeeded

    def wants_vote(self, digest):
        return not self.holds() or digest in self.tops

    def voted(self, voter, digest):
        if voter != self.edge.me and digest in self.tops and voter not in self.tops[digest]:
            self.tops[digest].add(voter)
            self.votes_at = self.edge.now

    def _voters(self):
        return max(map(len, self.tops.values()), default=0)

    def clock(self, waiting):
        """Once a tick while the replica leads, and somebody waits."""
        replica, gathered = self.edge.replica, self.gathers_since is not None
        if gathered and self._gathers():
            return
        self.gathers_since = None
        if not self.started:
            if not self.gathered and self._lacks_claims():
                self._gather()
                return
            self.started, self.high = True, replica.highest_block
            self._forget_blocks()
        elif gathered:
            self._attempt()
        elif replica.highest_block is not self.high:
            self.succeeded, self.high = True, replica.highest_block
            self.failed = 0 if self.clients else self.failed
            self._forget_blocks()
        elif self._is_over() and not self._next_attempt():
            return
        self._propose(waiting)

    def _is_over(self):
        times, is_trial = self.edge.times, len(self.clients) == 1 and self.edge.is_careful()
        return policy.is_over(self.votes_at, self.certified_at, self._voters(), self.edge.f, self.edge.now,
                              times.trial if is_trial else times.attempt)

    # ---- blocks

    def _propose(self, waiting):
        """The next block on a certified leaf; or empty ones up to the target; or, after a while, higher ones."""
        replica = self.edge.replica
        if replica.leaf == replica.highest_block.digest:
            top = max(block.height for block in self.edge.tree.blocks.values()) if self.edge.has("padding") else 0
            if top <= replica.leaf_height and not self.holds():
                self._give_requests(waiting)
            elif replica.pending:
                self.edge.do(Lead(self.edge.me, replica.leaf))
            self.target = max(top, replica.leaf_height) + 1
        elif self.edge.now - self.sent_at >= self.edge.times.again and replica.leaf_height >= self.target:
            self.target = replica.leaf_height + self.step
            self.step = min(2 * self.step, policy.first_step(16, self.edge.times)) if self.chosen else 1
        self._climb()

    def _climb(self):
        """So many new blocks as a tick has room for. Votes count for the last of each tick."""
        replica, made = self.edge.replica, 0
        while made < policy.PACE and replica.leaf_height < self.target and self._may_make_block():
            made += self._make_block()
            self.tops[replica.leaf] = set()

    def _next_stands(self):
        """The next block is padding that stands here."""
        replica = self.edge.replica
        core = Core(replica.leaf, replica.leaf_height + 1, replica.highest_block.height)
        return not replica.pending and self.edge.tree.get(core.digest()) is not None

    def _may_make_block(self):
        """The own account bounds a height, too."""
        return self._next_stands() or self.edge.door.has_room(self.edge.me, self.edge.replica.leaf_height + 1)

    def _make_block(self):
        """Whether the block is sent. Padding that stands isn't sent, but for the last: who lacks it asks for it."""
        edge, replica = self.edge, self.edge.replica
        is_known = self._next_stands() and replica.leaf_height + 1 < self.target
        edge.do(Beat(edge.me), not is_known)
        edge.town.come_to_itself()
        self.clients |= {command.client for command in replica.own_proposal[0].commands}
        self.sent_at = edge.now
        return not is_known

    # ---- requests

    def _give_requests(self, waiting):
        """All that wait. Behind a block with commands that found no certificate all that a quorum has; behind one more
        one client's alone of these. None before all certified commands are executed."""
        edge = self.edge
        if not edge.is_careful():
            for client in waiting:
                edge.hand_in(client)
            return
        edge.do(Lead(edge.me, edge.replica.leaf))
        known = self._known(waiting)
        if known and not (edge.has("flush") and self._has_unexecuted()):
            for client in known if self._trusts() else [policy.next_client(known, self.failures, self.turns)]:
                self.turns[client] = edge.now
                edge.hand_in(client)

    def _known(self, waiting):
        """Those whose requests a quorum has; for others it asks."""
        if not self.edge.has("vouchers"):
            return waiting
        known = [client for client in waiting if self.edge.is_vouched(client)]
        self.edge.pass_on([client for client in waiting if client not in known])
        return known

    def _trusts(self):
        """What a quorum has didn't fail yet."""
        return self.edge.has("vouchers") and self.failed <= policy.MOST_FAILED

    def _has_unexecuted(self):
        replica = self.edge.replica
        return any(block.core.commands for block in replica.highest_block.above(replica.executed.height))

    def _note_failure(self):
        """A block with commands found no certificate. Once that may be for want of grounds."""
        self.failed += bool(self.clients)
        if len(self.clients) == 1:
            [client] = self.clients
            self.failures[client] = self.failures.get(client, 0) + 1
        if self.clients and self.failed > 1:
            self.edge.meet_spoilt()

    # ---- attempts

    def _next_attempt(self):
        """Whether it begins at once. Behind that from the own lock the replica takes what it asked for first."""
        self.edge.meet_trouble()
        self._note_failure()
        if self.tried_lock and not self.succeeded and not self.gathered:
            self._gather()
            return False
        self._attempt()
        return True

    def _lacks_claims(self):
        """More than f others announced what doesn't stand here, so a correct one did."""
        return sum(self.edge.tree.get(digest) is None for digest in self.edge.claims.values()) > self.edge.f

    def _gather(self):
        self.gathered, self.chosen, self.gathers_since = True, False, self.edge.now
        self.edge.questions.try_all()

    def _gathers(self):
        """Blocks that were asked for still come in; at most for half a view, since liars may have endless ones."""
        edge = self.edge
        news = max(edge.questions.news_at, self.gathers_since)
        has_time = edge.now - self.gathers_since <= edge.patience() // 2
        return edge.questions.open and has_time and edge.now - news <= 2 * edge.times.again

    def _attempt(self):
        base = self._base()
        self.tried[base] = self.tried.get(base, 0) + 1
        self.chosen = self.edge.do(Lead(self.edge.me, base)) is None
        self.succeeded, self.high = False, self.edge.replica.highest_block
        self._forget_blocks()
        self.step = policy.first_step(self.tried[base], self.edge.times)
        self.edge.town.count["attempts"] += 1

    def _base(self):
        """The highest certificate's block where one came in this attempt; the own lock; then what was tried least."""
        replica = self.edge.replica
        if self.succeeded:
            return replica.highest_block.digest
        if not self.tried_lock and self.edge.has("lock first"):
            self.tried_lock = True
            return replica.lock.digest
        claims = self._claims()
        base = policy.next_base(list(claims) + [replica.lock.digest], self.tried)
        self.last_sender = claims.get(base, self.last_sender)
        return base

    def _claims(self):
        """What blocks justify that others announced and that stand here, no lower than the lock: digest -> sender."""
        found = {}
        senders = self.edge.claims if self.edge.has("claims") else ()
        for sender in policy.in_turns(senders, self.last_sender):
            block = self.edge.tree.get(self.edge.claims[sender])
            if block is not None and block.core and block.justify_height >= self.edge.replica.lock.height:
                found.setdefault(block.justified.digest, sender)
        return found
