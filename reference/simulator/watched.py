"""A world that is watched while it runs: each step of a correct replica is held against what was voted for and taken
before it, and what has to hold at any time and at the end can be asked."""
import collections

from . import audit, frames, judging
from .frames import Kind, kind_of
from .sizes import FIRST_CLIENT
from .world import Gather, Lead, Offer, World


class Watched(World):
    """A world of which each step is held against what was voted for and taken before."""

    def __init__(self, config, faulty):
        super().__init__(config, faulty)
        self.voted, self.taken = collections.defaultdict(set), collections.defaultdict(set)
        self.happened, self.answers, self.receipts = [], [], []

    def happen(self, event):
        refused, sent, receipt = super().happen(event)
        self.happened.append(event)
        self.answers.append(refused)
        for vote in [frames.read(self.config, frame.data) for frame in sent if kind_of(frame.data) == Kind.VOTE]:
            self.voted[vote.digest].add(event.party)
        if receipt:
            self.receipts.append((self.events, event.party - FIRST_CLIENT, receipt))
        if event.party in self.replicas and refused is None:
            self._look_at(event.party, self.replicas[event.party].came)
        return refused, sent, receipt

    def _look_at(self, number, step):
        """What stood of the event, as it is stored."""
        if not step.new:
            return
        digest = step.core.digest()
        for voter in self.replicas.keys() & step.counted:
            assert voter in self.voted[step.justified], "r%d counts a vote that r%d never gave" % (number, voter)
        for sender in self.replicas.keys() & step.senders:
            assert sender in self.taken[digest], "r%d names r%d, which never took that" % (number, sender)
        self.taken[digest].add(number)

    def view(self):
        """The highest of a correct replica."""
        return max(replica.pacemaker.view for replica in self.replicas.values())

    def could_be_certified(self, block):
        liars = sum(party < FIRST_CLIENT for party in self.faulty)
        return not block.core or len(self.voted[block.digest]) + liars >= self.config.quorum

    def check(self):
        """What has to hold at any time."""
        for replica in self.replicas.values():
            assert not replica.stopped, "r%d stopped" % replica.me
            justified = [block.justified for block in replica.tree.blocks.values() if block.justified]
            for block in justified + [replica.lock, replica.highest_block]:
                assert self.could_be_certified(block), "r%d has grounds for what can't be certified" % replica.me
        assert audit.judge_windows(list(self.replicas.values()))[0] != "fork", "two decide differently"

    def differences(self):
        """How far apart correct replicas are, in words."""
        replicas = self.replicas.values()
        top = max(replicas, key=lambda replica: replica.lock.height)
        told = {"worlds with a lock": top.lock.core is not None,
                "worlds whose locks differ": len({replica.lock.digest for replica in replicas}) > 1,
                "worlds in which some lack the lock": any(top.lock.digest not in r.tree.blocks for r in replicas),
                "worlds whose highest certificates differ": len({replica.highest for replica in replicas}) > 1}
        return [what for what, holds in told.items() if holds]

    def counts(self):
        """How often there was what."""
        yield from ["worlds", "worlds of %d replicas" % self.config.n] + ["events"] * self.events
        for event, answer in zip(self.happened, self.answers):
            if isinstance(event, (Offer, Gather, Lead)):
                yield "%s: %s" % (type(event).__name__.lower(), answer.name if answer else "ok")
        for replica in self.replicas.values():
            blocks = [block for block in replica.tree.blocks.values() if block.justify_height]
            yield from ["blocks kept without votes"] * sum(not block.cert.votes for block in blocks)
            yield from ["blocks taken for their senders"] * sum(len(s.senders) > 0 for s in replica.chronicle or [])

    def check_outcome(self, ask_audit):
        """What has to hold at the end, where nobody pruned. The audit takes its time."""
        run = judging.Run.that_was(self, self.happened, self.answers, self.receipts)
        assert not [fault for fault in judging.faults_of(run) if fault], "not linear"
        assert not (ask_audit and audit.unbacked(list(self.replicas.values()))), "an audit blames a correct replica"
