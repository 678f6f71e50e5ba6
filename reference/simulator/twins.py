"""Two replicas that are given the same: one forgets what is pruned, the other one never does. They have to
answer alike, and to be in the same state after each input."""
import collections
import weakref

from . import blocks
from .replica import Replica
from .sizes import Refusal
from .whole_history import ROOT, WholeReplica


class Twins(Replica):
    """The one that forgets, with the other beside it."""

    tally = collections.Counter()       # (input, refusal or 0) -> how often, over all twins

    def __init__(self, config, me):
        super().__init__(config, me)
        self.whole = WholeReplica(config, me)
        self.alive = weakref.WeakSet()  # each block that was ever taken, as long as anything holds it

    def receive(self, checked):
        return self._both("receive", checked)

    def offered(self, checked):
        return self._both("offered", checked)

    def gathered(self, copies):
        return self._both("gathered", copies)

    def lead(self, digest):
        return self._both("lead", digest)

    def ask(self, to, digest):
        return self._both("ask", to, digest)

    def timeout(self):
        return self._both("timeout")

    def beat(self):
        return self._both("beat")

    def prune(self, height):
        return self._both("prune", height)

    def _both(self, name, *given):
        mine = outcome(getattr(super(), name), *given)
        others = outcome(getattr(self.whole, name), *given)
        assert mine == others, (self.me, name, mine, others)
        out, refused = mine
        what = given[0].frame.kind.name if name in ("receive", "offered") else name
        what = "offered " + what if name == "offered" else what
        self.tally[what, refused[0].name if refused else "ok"] += 1
        assert self._state() == whole_state(self.whole), (self.me, name)
        self._check_window()
        if refused:
            raise Refusal(*refused)
        return out

    def _state(self):
        return {
            "window": {digest: block.height for digest, block in self.tree.blocks.items()},
            "horizon": self.tree.horizon, "voted": self.voted_height,
            "lock": (self.lock.digest, self.lock.height),
            "executed": (self.executed.digest, self.executed.height),
            "highest": (self.highest, self.highest_block.height), "leaf": (self.leaf, self.leaf_height),
            "votes": {digest: block.votes for digest, block in self.tree.blocks.items() if block.votes},
            "proposed": self.own_proposal, "view": self.pacemaker.view,
            "pending": list(self.pending.values()), "length": self.executor.length, "stopped": self.stopped,
        }

    def _check_window(self):
        """Lock, last executed and certified block stand; no link leads out; and nothing else is held."""
        tree = self.tree
        for block in (self.lock, self.executed, self.highest_block):
            assert tree.get(block.digest) is block
        for block in tree.blocks.values():
            for other in (block.parent, block.justified):
                assert other is None or tree.get(other.digest) is other
        self.alive.update(tree.blocks.values())
        assert len(self.alive) == len(tree.blocks), (len(self.alive), len(tree.blocks))
        assert sum(tree.of_height.values()) == len(tree.blocks) - 1
        heights = [block.height for block in tree.blocks.values() if block.core]
        assert all(height + blocks.BELOW_THE_HORIZON >= tree.horizon for height in heights)


def outcome(method, *given):
    """(what goes out, None), or (None, (the refusal, whom to ask for what))"""
    try:
        return method(*given), None
    except Refusal as refusal:
        return None, (refusal.fault, refusal.missing)


def whole_state(whole):
    now = whole.chronicle
    block, cert = now.highest
    return {
        "window": {branch.digest: branch.height for branch in [ROOT] + now.standing},
        "horizon": now.horizon, "voted": now.voted_height,
        "lock": (now.lock.digest, now.lock.height),
        "executed": (now.executed.digest, now.executed.height),
        "highest": (cert, block.height), "leaf": now.leaf,
        "votes": {branch.digest: votes for branch in [ROOT] + now.standing if (votes := now.votes(branch))},
        "proposed": now.proposed, "view": now.view, "pending": now.pending,
        "length": len(now.executed.history), "stopped": whole.stopped,
    }
