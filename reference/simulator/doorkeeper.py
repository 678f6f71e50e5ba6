"""Which blocks come in to one replica: few of a height on one replica's account, and a leader's heights at no more than
a pace. What is kept out is lost."""
import collections

from . import policy


class Doorkeeper:
    """Accounts of one replica. `most_climb` may be None, for no ceiling; `pace` may be 0, for no bound of a tick."""

    def __init__(self, n, most_climb=None, pace=policy.PACE):
        self.most = policy.allowance(n)
        self.most_climb, self.pace = most_climb, pace
        self.brought = collections.Counter()        # (payer, height) -> blocks that were taken
        self.spare = {}                             # sender -> (tick, heights that may come at once)

    def has_room(self, payer, height):
        return self.brought[payer, height] < self.most

    def took(self, payer, height):
        self.brought[payer, height] += 1

    def lets_in(self, now, leader, frame):
        """A proposal of a view's leader."""
        core = frame.core
        if policy.climbs_too_far(frame.view, core.height, core.justify, self.most_climb):
            return False
        return self.has_room(leader, core.height) and self._keeps_pace(now, leader)

    def _keeps_pace(self, now, sender):
        if not self.pace:
            return True
        at, spare = self.spare.get(sender, (now, policy.SPARE))
        spare = min(policy.SPARE, spare + (now - at) * self.pace)
        self.spare[sender] = now, max(0, spare - 1)
        return spare > 0
