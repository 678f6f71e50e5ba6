"""What the edge around a replica decides when others may lie: rules over plain values.

None of them knows who lies, and no theorem needs them: an edge only loses, delays, repeats and offers frames. They say
when a replica goes on, and for whom. While nobody lies none of them sends a frame more.

A frame's way is how long frames take between replicas at most, mostly; all times are multiples of it.
"""
import functools
from dataclasses import dataclass

from .frames import Core

MOST_OF_SENDER = 4              # blocks of a height that one sender brings
MOST_OF_HEIGHT = 64             # blocks of a height that a tree takes
PACE = 8                        # heights a tick that a leader climbs, and that come in from a sender
SPARE = 64                      # heights that may come in from a sender at once
MOST_PARKED = 256               # proposals of a view that wait for grounds or a parent
MOST_VOTES_KEPT = 64            # votes of a voter for blocks that aren't there
MOST_PADDING = 4096             # blocks whose digests are computed before they come
MOST_FAILED = 2                 # blocks without a certificate in a row until those vouched for come one at a time
MOST_QUESTIONS = 12             # times that a block is asked for on one frame's account


@dataclass(frozen=True)
class Times:
    """How long things last, in ticks, where a frame takes `way` ticks."""
    way: int = 1

    @property
    def trouble(self):
        """Behind the last trouble votes go to all for so long."""
        return 400 * self.way

    @property
    def attempt(self):
        """A leader waits so long for news of an attempt."""
        return 8 * self.way + 2

    @property
    def turn(self):
        """One client's turn: its block, and empty blocks that decide or replace it."""
        return 8 * self.way

    @property
    def trial(self):
        """A leader waits so long for a block of one client."""
        return 5 * self.way

    @property
    def again(self):
        """A question, an announcement or a higher block follows after so long, where nothing came."""
        return 3 * self.way + 1

    @property
    def repeat(self):
        """A client sends its request again."""
        return 20 * self.way


# What can be left out of the policy, by its name.
RULES = ("offers", "copies", "digests", "votes to all", "lasting trouble", "beginnings", "padding", "lock first",
         "claims", "turns", "flush", "fairness", "vouchers")


# ---- whom a block is charged to

def allowance(n):
    """So many blocks of a height come in on one replica's account.

    A block is charged to the replica whose frame made this one ask: the leader of the proposal that brought or needed
    it, or the sender of the announcement that named it. Its ancestors are charged as it is. Who answers a question pays
    nothing, so a correct replica's answers never use up its account; and nothing comes in on nobody's account. Hence n
    accounts bound a height, whoever asks whom: n times this number, which is less than the 64 that a tree takes for
    each f (16, 28, 40, 52, 48, 57, 44, 50, 56, 62 for f = 1 to 10). Liars together fill f of these accounts, and no
    more, however many blocks each of them spread.
    """
    return min(MOST_OF_SENDER, (MOST_OF_HEIGHT - 1) // n)


def most_of_a_height(n):
    """So many blocks of a height come to a correct replica at most."""
    return n * allowance(n)


def climbs_too_far(view, height, justified_height, most):
    """Whether a proposal of a view stands more than most (view + 1) above the block that it justifies. No ceiling
    (None) serves better: liars who lead view w get one replica to vote 2 most (w + 1) above the highest lock, by two
    such climbs, and a leader that may climb but most (v + 1) from that lock has to wait for view 2 w + 1. A pace gives
    each leader in its time what it gave to liars in theirs."""
    return most is not None and height - justified_height > most * (view + 1)


# ---- trouble and views

def patience(times, f, bad_views, turns):
    """A view without progress ends after so long: three attempts at first, so that liars who lead one after the other
    don't take long; after f bad views f + 2 attempts and one that succeeds, and more after each further one. And a turn
    for each of so many clients."""
    attempts = 3 + min(bad_views, f)
    return times.attempt * attempts * (8 + min(max(0, bad_views - f), 32)) // 8 + times.turn * turns


def is_too_long(waited, view_patience, views_ended):
    """A view ends for one client that waits while others are served: after two patiences at first, and after twice as
    long for each view that ended for it, since a faulty client's request may wait for ever."""
    return waited > view_patience * 2 ** (1 + views_ended)


def may_begin(announced, view, quorum):
    """A view's clock begins once a quorum of replicas announced it, or a higher one; view 0 needs no announcement."""
    return view == 0 or sum(other >= view for other in announced) >= quorum


def is_over(votes_at, certified_at, voters, f, now, limit):
    """A leader gives an attempt up when neither a certificate nor votes of more than f other replicas came for so long.
    Votes of fewer may all be liars'."""
    news = max(certified_at, votes_at) if voters > f else certified_at
    return now - news >= limit


# ---- what a leader leads from

def next_base(candidates, tried):
    """The block that was tried least, of several the first; None where there is none."""
    return min(candidates, key=lambda digest: tried.get(digest, 0), default=None)


@functools.lru_cache(maxsize=4096)
def padding(base, base_height, height):
    """The digests of the empty blocks over a base that justify it, up to a height; none where there are too many."""
    digests, parent = [], base
    last = height if height - base_height <= MOST_PADDING else base_height
    for at in range(base_height + 1, last + 1):
        parent = Core(parent, at, base_height).digest()
        digests.append(parent)
    return tuple(digests)


def first_step(tried, times):
    """By so many heights a leader climbs on at first, in an attempt from what was tried so often: faster each time."""
    return min(2 ** min(tried, 16), PACE * times.again)


def in_turns(senders, last):
    """Senders from the one behind the last one that had its turn."""
    return sorted(senders, key=lambda sender: (sender <= last, sender))


# ---- whose requests

def next_client(waiting, failures, turns):
    """Whose request is proposed alone: fewest failures first, then who had no turn for the longest time."""
    return min(waiting, key=lambda client: (failures.get(client, 0), turns.get(client, -1), client), default=None)
