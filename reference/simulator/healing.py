"""Brings a waiting client its receipt by events of correct parties alone, whatever faulty ones did before.

A correct replica of the highest lock, the first of them, leads from that lock. Before that all correct replicas come
into a view of it, and get the block that justifies the lock, with all below it: so the lock has grounds with each of
them. The leader makes blocks until one is above all heights for which correct replicas voted, before any vote for them
is counted. Votes go to all, so each correct replica has a certificate of its own for the last one. Three more blocks
decide it. Then the request comes to all, and their replies to the client.

The leader must not have pruned (21), and a block that is asked for has to come (13). For a receipt no correct replica
may have stopped, and there has to be room for the blocks.
"""
from .frames import GENESIS, Kind, kind_of
from .own_frames import ALL
from .sizes import FIRST_CLIENT, Fault, Refusal
from .world import Ask, Beat, Gather, Lead, Offer, Relay, Timeout

MORE_ROUNDS = 3


class Healer:
    """A world, and the events that were added to it."""

    def __init__(self, world):
        self.world = world
        self.correct = sorted(world.replicas)
        self.events = []
        self.receipt = None

    def do(self, event):
        _, _, receipt = self.world.happen(event)
        self.events.append(event)
        self.receipt = receipt or self.receipt

    def heal(self, client):
        """The receipt, or None."""
        request = self._request_of(client)
        leader = self._highest_locked()
        replica = self.world.replicas[leader]
        if replica.tree.horizon > 0:
            raise Refusal(Fault.PRUNED)
        lock, over = replica.lock, self._over(replica)
        self._come_to_view_of(leader)
        if not over.core:
            self._make_first(leader)
        for block in over.above(0):
            self._bring_to_all(block.digest)
        self.do(Lead(leader, lock.digest))
        self.do(Relay(request, leader))
        self._round(leader, self._to_climb(leader))
        for _ in range(MORE_ROUNDS):
            self._round(leader, 1)
        self._ask_again(request)
        return self.receipt

    def heal_all(self):
        """Each correct client that waits, one after the other."""
        for client in sorted(self.world.sessions):
            if self.world.sessions[client].outstanding:
                self.heal(client)

    # ---- frames of the record

    def _sent_since(self, before, kind):
        """The numbers of the frames of a kind that were sent since there were so many."""
        numbers = range(before, len(self.world.record))
        return [number for number in numbers if kind_of(self.world.record[number].data) == kind]

    def _deliver_since(self, before, kind):
        """They come to whom they go."""
        for number in self._sent_since(before, kind):
            to = self.world.record[number].to
            for party in self.correct if to == ALL else [to]:
                self.do(Relay(number, party))

    def _bring(self, parties, numbers):
        for party in parties:
            for number in numbers:
                self.do(Relay(number, party))

    def _offer(self, replicas, numbers):
        for replica in replicas:
            for number in numbers:
                self.do(Offer(replica, number))

    # ---- before the leader proposes

    def _highest_locked(self):
        return max(self.correct, key=lambda number: (self.world.replicas[number].lock.height, -number))

    def _come_to_view_of(self, leader):
        view = max(replica.pacemaker.view for replica in self.world.replicas.values()) + 1
        view += (leader - view) % self.world.config.n
        for number in self.correct:
            while self.world.replicas[number].pacemaker.view < view:
                self.do(Timeout(number))

    def _over(self, replica):
        """A certified block that justifies the replica's lock: by the oldest block that it took over such a one."""
        taken = [block for block in replica.tree.blocks.values() if block.core]
        over = [block.justified for block in taken if block.justified.justified is replica.lock]
        return over[0] if over else replica.tree.genesis

    def _make_first(self, leader):
        """Genesis has grounds with who took any block. So the leader makes one there, for all that never took one."""
        before = len(self.world.record)
        self.do(Lead(leader, GENESIS))
        self.do(Beat(leader))
        newcomers = [number for number in self.correct if len(self.world.replicas[number].tree.blocks) == 1]
        self._bring(newcomers, self._sent_since(before, Kind.PROPOSAL))

    def _bring_to_all(self, digest):
        for replica in [number for number in self.correct if self.world.replicas[number].tree.get(digest) is None]:
            self._bring_block(replica, digest)

    def _bring_block(self, replica, digest):
        """It asks each, and gathers what they answer."""
        before = len(self.world.record)
        for other in self.correct:
            asked = len(self.world.record)
            self.do(Ask(replica, other, digest))
            self._deliver_since(asked, Kind.FETCH)
        copies = self._sent_since(before, Kind.BLOCK)
        if not copies:
            raise Refusal(Fault.UNKNOWN_PARENT)
        self.do(Gather(replica, tuple(copies)))

    # ---- blocks

    def _to_climb(self, leader):
        """How many blocks it takes to be above all heights that correct replicas voted for."""
        voted = max(replica.voted_height for replica in self.world.replicas.values())
        return max(0, voted - self.world.replicas[leader].leaf_height) + 1

    def _round(self, leader, count):
        """So many blocks, which the leader takes one by one; then all to the others, and all votes to all."""
        before = len(self.world.record)
        for _ in range(count):
            beaten = len(self.world.record)
            self.do(Beat(leader))
            self._offer([leader], self._sent_since(beaten, Kind.PROPOSAL))
        others = [number for number in self.correct if number != leader]
        self._offer(others, self._sent_since(before, Kind.PROPOSAL))
        self._bring(self.correct, self._sent_since(before, Kind.VOTE))

    # ---- the client

    def _request_of(self, client):
        frame = self.world.sessions[client].frame
        return next(number for number, sent in enumerate(self.world.record) if sent.data == frame and sent.to == ALL)

    def _ask_again(self, request):
        """The request comes to all again, and their replies to the client."""
        before = len(self.world.record)
        self._bring(self.correct, [request])
        self._deliver_since(before, Kind.REPLY)
