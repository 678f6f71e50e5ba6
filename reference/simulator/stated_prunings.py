"""Runs that show one thing each of replicas that prune, above all at the edge of the window."""
from dataclasses import replace

from . import frames
from .frames import GENESIS, Certificate, Command, Core, FetchFrame, Kind, kind_of, write
from .signing import block_of, proposal_of
from .sizes import FIRST_CLIENT, TOP
from .stated_runs import C0, GET_A, REPLICAS, SET_A, Run
from .tags import Keyring
from .world import Beat, Prune, Submit, Timeout

CORRECT, LIAR = REPLICAS[:3], 3


class Chain(Run):
    """A run whose blocks and votes are found by height."""

    def __init__(self, faulty=()):
        super().__init__(clients=2, faulty=faulty)
        self.proposals = {}         # height -> the number of its last proposal
        self.votes = {}             # height -> {voter: the number of its vote}

    def kind(self, frame):
        return kind_of(self.world.record[frame].data)

    def read(self, frame):
        return frames.read(self.config, self.world.record[frame].data)

    def round(self, leader, parties, times=1):
        """A beat, its proposal to all, and their votes to the leader; all but the votes that were sent."""
        [proposal] = self.do(Beat(leader))
        height = self.read(proposal).core.height
        self.proposals[height] = proposal
        sent = self.relay(proposal, parties)
        votes = [frame for frame in sent if self.kind(frame) == Kind.VOTE]
        self.votes[height] = {self.read(vote).vote.voter: vote for vote in votes}
        for vote in votes:
            self.relay(vote, [leader])
        return [frame for frame in sent if frame not in votes]

    def grow(self, heights, parties=CORRECT, leader=0):
        """So many blocks more; what was sent beside votes."""
        return [frame for _ in range(heights) for frame in self.round(leader, parties)]

    def prune(self, height, parties):
        for party in parties:
            self.do(Prune(party, height))

    def core(self, height):
        return self.read(self.proposals[height]).core

    def digest(self, height):
        return self.core(height).digest() if height else GENESIS

    def certificate(self, height):
        """Of the votes that were given; genesis has none."""
        votes = [self.read(vote).vote for _, vote in sorted(self.votes[height].items())] if height else []
        return Certificate(self.digest(height), tuple(votes))

    # ---- what the liar sends

    def bring_block(self, core, cert, parties):
        for party in parties:
            self.inject(block_of(self.config, LIAR, party, core, cert), [party])

    def ask(self, height, parties):
        """The liar asks for the block of a height."""
        self.ask_for(self.digest(height), parties)

    def ask_for(self, digest, parties):
        for party in parties:
            frame = FetchFrame(LIAR, digest)
            tag = Keyring(self.config, LIAR).tag(Kind.FETCH, party, frame.content())
            self.inject(write(replace(frame, tag=tag)), [party])


def eight_heights(faulty=(LIAR,), parties=CORRECT):
    """Eight blocks, of which five are executed."""
    run = Chain(faulty)
    [request] = run.do(Submit(0, SET_A))
    run.relay(request, parties)
    run.grow(8, parties)
    return run


def pruned_at_five():
    """Replica 1 prunes at its last executed block, of height 5: blocks of height 3 and more stand, and no
    block may justify one below 5."""
    run = eight_heights()
    run.prune(5, [1])
    return run


def justifies_below_the_horizon():
    """Blocks on the highest one that justify those of heights 4, 1 and 0 are refused, one that justifies that
    of height 5 is taken. A replica that didn't prune takes all of them."""
    run = pruned_at_five()
    for justify in (4, 1, 0, 5):
        core = Core(run.digest(8), 9, justify)
        run.bring_block(core, run.certificate(justify), [1, 2])
    return run


def refusals_in_their_order():
    """What justifies below the horizon is refused for that before its parent is missed, before its height is
    wrong and before its certificate is. At the horizon each of these is found."""
    run = pruned_at_five()
    for justify in (4, 5):
        for parent, height in ((bytes(32), 9), (run.digest(8), 10), (run.digest(8), 9)):
            run.bring_block(Core(parent, height, justify), run.certificate(6), [1])
    return run


def parents_at_the_floor():
    """New blocks on those of heights 2 to 5, each justified by its parent. The blocks of heights 3 and 4
    stand, and yet nothing may stand on them; on the one of height 5 a block may, and it is sent to who asks.
    """
    run = pruned_at_five()
    command = Command(1, 1, GET_A, bytes(128))
    for parent in (2, 3, 4, 5):
        core = Core(run.digest(parent), parent + 1, parent, (command,))
        run.bring_block(core, run.certificate(parent), [1])
        run.ask_for(core.digest(), [1])
    return run


def one_of_the_window_again():
    """Each proposal comes again: those of blocks that justify below the horizon are refused, whether they
    stand or not; the later ones are known. With a certificate of another block they are refused for that only
    where they aren't for the horizon."""
    run = pruned_at_five()
    for height in range(1, 9):
        run.relay(run.proposals[height], [1])
    for height in (3, 5, 6):
        run.bring_block(run.core(height), run.certificate(7), [1])
    return run


def a_late_vote():
    """The leader prunes. Votes for the block of height 3 still come to something, those for the one of height
    2 don't: it asks the voter, who sends the block, which is refused. Its own vote asks nobody."""
    run = eight_heights(faulty=())
    run.prune(5, [0])
    run.relay(run.votes[3][1], [0])
    [question] = run.relay(run.votes[2][1], [0])
    [block] = run.relay(question, [1])
    run.relay(block, [0])
    run.relay(run.votes[2][0], [0])
    run.relay(run.votes[5][2], [0])
    return run


def votes_that_wait():
    """Two votes for the highest block wait with the leader while it prunes, and a third one makes them a
    certificate. The next block has it, so that it decides the block with the command."""
    run = Chain()
    run.grow(5, REPLICAS)
    [request] = run.do(Submit(0, SET_A))
    run.relay(request, REPLICAS)
    run.grow(2, REPLICAS)
    [proposal] = run.do(Beat(0))
    votes = run.relay(proposal, REPLICAS)
    run.relay(votes[0], [0])
    run.relay(votes[1], [0])
    run.prune(TOP, [0])
    run.relay(votes[2], [0])
    run.grow(1, REPLICAS)
    return run


def a_proposal_again():
    """A leader that hasn't its own last block yet prunes, and proposes that block again."""
    run = eight_heights(faulty=(), parties=REPLICAS)
    [proposal] = run.do(Beat(0))
    run.prune(TOP, [0])
    run.do(Beat(0))
    for vote in run.relay(proposal, REPLICAS):
        run.relay(vote, [0])
    run.grow(1, REPLICAS)
    return run


def announcements_that_wait():
    """Replica 1 heard that replica 2 is in view 1, and prunes. When replica 3 announces that view, too, it
    goes there, and leads. Its pruning left its view as it is, and its votes: it votes for none of the blocks
    that it voted for."""
    run = eight_heights(faulty=(), parties=REPLICAS)
    [one], [other] = run.do(Timeout(2)), run.do(Timeout(3))
    run.relay(one, [1])
    run.prune(TOP, [1])
    run.relay(run.proposals[8], [1])
    run.relay(other, [1])
    run.do(Beat(1))
    return run


def locks_after_a_pruning():
    """Of eight blocks five are executed and six locked. Replica 1 prunes, replica 2 doesn't. The liar leads
    view 3, and proposes other blocks from height 6 on: on the one of height 5, which the lock is not on, and
    on the one of height 6, which is the lock. Both replicas vote alike: for the second branch, where it gets
    higher than they voted."""
    run = eight_heights()
    run.prune(TOP, [1])
    for _ in range(3):
        for replica in CORRECT:
            run.do(Timeout(replica))
    commands = (run.read(0).command,)
    for justify in (5, 6):
        parent = run.digest(justify)
        for height in range(justify + 1, 11):
            core = Core(parent, height, justify, commands)
            proposal = proposal_of(run.config, 3, core, run.certificate(justify))
            run.inject(proposal, [1, 2])
            parent = core.digest()
    return run


def a_new_view_of_a_pruned_block():
    """Replica 3 heard of two blocks alone, and announces view 1 with the certificate of the first. A replica
    that pruned lacks that block, asks for it, and refuses it; it counts no announcement, so that it stays in
    its view when replica 2 announces, too. One that didn't prune goes on."""
    run = Chain()
    run.grow(2, REPLICAS)
    run.grow(6)
    run.prune(5, [1])
    [behind] = run.do(Timeout(3))
    [question] = run.relay(behind, [1])
    [block] = run.relay(question, [3])
    run.relay(block, [1])
    [ahead] = run.do(Timeout(2))
    run.relay(ahead, [1, 0])
    run.relay(behind, [1, 0])
    return run


def genesis_is_never_pruned():
    """Replica 3 heard of nothing, and announces view 1 with genesis's certificate: that is counted, also by
    replicas that pruned. What justifies genesis is refused by them."""
    run = Chain()
    run.grow(8)
    run.prune(5, CORRECT)
    [behind] = run.do(Timeout(3))
    run.relay(behind, CORRECT)
    [ahead] = run.do(Timeout(2))
    sent = run.relay(ahead, [0, 1])
    run.relay(sent[0], [1, 2])
    run.relay(run.proposals[1], CORRECT)
    return run


def a_question_for_a_pruned_block():
    """Asked for blocks of the window a replica sends them; asked for pruned ones it sends nothing."""
    run = pruned_at_five()
    for height in range(9):
        run.ask(height, [1])
    return run


def above_the_last_executed():
    """A pruning above the last executed height goes to that height alone: of eight blocks five are executed,
    so that the block of height 3 still stands, and the one of height 2 doesn't. A lower one afterwards
    changes nothing: no block may justify the one of height 4."""
    run = eight_heights()
    for height in (TOP, 6, 0):
        run.prune(height, [1])
        for asked in (2, 3):
            run.ask(asked, [1])
        run.bring_block(Core(run.digest(8), 9, 4), run.certificate(4), [1])
    run.grow(1, [0, 1])
    for asked in (3, 4):
        run.ask(asked, [1])
    run.prune(TOP, [1])
    for asked in (3, 4):
        run.ask(asked, [1])
    return run


def nothing_was_executed():
    """A pruning of a replica that executed nothing keeps all: a block that justifies genesis is taken."""
    run = Chain([LIAR])
    run.prune(TOP, CORRECT)
    run.grow(3)
    run.prune(TOP, CORRECT)
    run.bring_block(Core(run.digest(3), 4, 0), Certificate(GENESIS), [1])
    run.ask(1, [1])
    return run


def each_height_in_turn():
    """One replica prunes at 1, 2, 3 and so on: the first blocks go when the horizon is three above them."""
    run = eight_heights()
    for horizon in range(1, 6):
        run.prune(horizon, [1])
        for height in range(1, 5):
            run.ask(height, [1])
        core = Core(run.digest(8), 9, horizon - 1)
        run.bring_block(core, run.certificate(horizon - 1), [1])
    return run


def a_leaf_below_the_others_horizon():
    """Replica 1 heard of three blocks alone. It leads view 1, and proposes on what it knows: replicas that
    pruned refuse that, one that didn't takes it, and doesn't vote, since its lock is higher."""
    run = Chain()
    run.grow(3, REPLICAS)
    run.grow(6, [0, 2, 3])
    run.prune(6, [0, 3])
    for replica in REPLICAS:
        run.do(Timeout(replica))
    [proposal] = run.do(Beat(1))
    run.relay(proposal, [0, 3, 2, 1])
    return run


def a_digest_again():
    """A block that was pruned comes again, with its certificate, and is refused for what it justifies; it
    doesn't stand anew, also where its parent still does."""
    run = pruned_at_five()
    for height in (1, 2, 3, 4):
        run.bring_block(run.core(height), run.certificate(height - 1), [1])
        run.ask(height, [1])
    return run


def a_command_above_the_horizon():
    """A command stands in a block that isn't executed yet when its leader prunes: it isn't proposed again.
    Once it is executed and its block was pruned, the request is answered again, and is proposed no more."""
    run = eight_heights(faulty=(), parties=REPLICAS)
    [request] = run.do(Submit(1, GET_A))
    run.relay(request, REPLICAS)
    run.grow(1, REPLICAS)
    run.prune(TOP, REPLICAS)
    run.grow(2, REPLICAS)
    replies = run.grow(1, REPLICAS)
    for reply in replies[:2]:
        run.relay(reply, [FIRST_CLIENT + 1])
    run.grow(4, REPLICAS)
    run.prune(TOP, REPLICAS)
    run.relay(request, REPLICAS)
    run.grow(1, REPLICAS)
    return run


def pruned_at_the_last_executed():
    """All prune at the last executed block after each round, and the leader changes twice. A client counts,
    as it would without prunings."""
    run = Chain()
    for number in range(24):
        if number % 8 == 0 and number:
            for replica in REPLICAS:
                run.do(Timeout(replica))
        if not run.world.sessions[0].outstanding:
            [request] = run.do(Submit(0, b"incr a 1\r\n" if number else b"set a 0 0 1\r\n0\r\n"))
            run.relay(request, REPLICAS)
        for reply in run.round(number // 8, REPLICAS)[:2]:
            run.relay(reply, [C0])
        run.prune(TOP, REPLICAS)
    return run


def two_hundred_heights():
    """A chain of two hundred heights that is pruned as it goes: one replica keeps nothing below the last
    executed block, one ten heights, one all. A client counts. The leader changes in the middle. The fourth
    replica gets nothing at first, and then all proposals in a row, of which it executes all; it never pruned.
    """
    run = Chain()
    early, late = CORRECT, 3
    proposals, leader = [], 0
    for number in range(201):
        if number == 100:
            leader = 1
            for replica in REPLICAS:
                run.do(Timeout(replica))
        if number % 10 == 0:
            [request] = run.do(Submit(0, b"incr a 1\r\n" if number else b"set a 0 0 1\r\n0\r\n"))
            run.relay(request, early)
            run.prune(max(0, number - 13), [1])
        if number % 3 == 0:
            run.prune(TOP, [0])
        proposals.append(len(run.world.record))
        for reply in run.round(leader, early):
            run.relay(reply, [C0])
    for proposal in proposals:
        run.relay(proposal, [late])
    for replica in early:
        run.relay(proposals[100], [replica])
    return run


def stuck_below_the_windows():
    """Replica 3 heard of three blocks alone, and the others pruned. It asks back from the newest proposal,
    block by block, down to where their windows end, and gets no answer to the last question. Its own
    announcement is of a block that they lack, and what it sends them is refused. The others go on without it.
    """
    run = Chain()
    run.grow(3, REPLICAS)
    [request] = run.do(Submit(0, SET_A))
    run.relay(request, CORRECT)
    run.grow(9)
    run.prune(8, CORRECT)
    sent = run.relay(run.proposals[12], [3])
    while sent:
        [question] = sent
        blocks = run.relay(question, [0])
        sent = run.relay(blocks[0], [3]) if blocks else []
    [behind] = run.do(Timeout(3))
    for replica in CORRECT:
        [question] = run.relay(behind, [replica])
        [block] = run.relay(question, [3])
        run.relay(block, [replica])
    for reply in run.grow(1):
        run.relay(reply, [C0])
    return run


def caught_up_from_within():
    """Replica 3 heard of nothing behind height 6, and the others keep so much that it still catches up, block
    by block; then it executes what they did."""
    run = Chain()
    run.grow(6, REPLICAS)
    [request] = run.do(Submit(0, SET_A))
    run.relay(request, CORRECT)
    run.grow(5)
    run.prune(7, CORRECT)
    missing, sent = [run.proposals[11]], run.relay(run.proposals[11], [3])
    while sent and run.kind(sent[0]) == Kind.FETCH:
        missing += run.relay(sent[0], [0])
        sent = run.relay(missing[-1], [3])
    for frame in reversed(missing[:-1]):
        run.relay(frame, [3])
    return run


def all_runs():
    """(name, schedule)"""
    runs = [
        ("a block that justifies one below the horizon", justifies_below_the_horizon()),
        ("below the horizon, and what else is wrong", refusals_in_their_order()),
        ("blocks on the lowest blocks of a window", parents_at_the_floor()),
        ("blocks of the window that come again", one_of_the_window_again()),
        ("a late vote, for a block that was pruned", a_late_vote()),
        ("votes that wait while their leader prunes", votes_that_wait()),
        ("a proposal that is made again after a pruning", a_proposal_again()),
        ("announcements that wait while a replica prunes", announcements_that_wait()),
        ("locks after a pruning", locks_after_a_pruning()),
        ("a new view with the certificate of a pruned block", a_new_view_of_a_pruned_block()),
        ("genesis is never pruned", genesis_is_never_pruned()),
        ("questions for blocks, of which some were pruned", a_question_for_a_pruned_block()),
        ("prunings above the last executed height", above_the_last_executed()),
        ("prunings where nothing was executed", nothing_was_executed()),
        ("a horizon that rises by one", each_height_in_turn()),
        ("a leaf below the horizon of the others", a_leaf_below_the_others_horizon()),
        ("a digest that comes again after its block was pruned", a_digest_again()),
        ("a command that stands above the horizon", a_command_above_the_horizon()),
        ("all prune at the last executed block after each round", pruned_at_the_last_executed()),
        ("two hundred heights that are pruned as they go", two_hundred_heights()),
        ("a replica that is stuck below the others' windows", stuck_below_the_windows()),
        ("a replica that catches up from within the others' windows", caught_up_from_within()),
    ]
    return [(name, run.schedule()) for name, run in runs]


# Schedules that are refused as a whole, or whose lines are bad, as text.
TEXTS = [
    ("prunings of replicas that know nothing",
     "world 1 1\nprune r0 0\nprune r3 18446744073709551615\nprune r0 1\n"),
    ("a pruning of a faulty replica", "world 1 1 r2\nprune r2 7\nprune r1 7\n"),
    ("a pruning of a replica that isn't there", "world 1 1\nprune r4 0\n"),
    ("a pruning of a replica that isn't there, in a world of seven", "world 2 1\nprune r6 0\nprune r7 0\n"),
    ("a pruning of a client", "world 1 1\nprune c0 0\n"),
    ("a pruning without a height", "world 1 1\nprune r0\n"),
    ("a pruning with a space for a height", "world 1 1\nprune r0 \n"),
    ("a pruning with a leading zero", "world 1 1\nprune r0 01\n"),
    ("a pruning of a replica with a leading zero", "world 1 1\nprune r00 1\n"),
    ("a pruning of a replica beyond 255", "world 1 1\nprune r256 1\n"),
    ("a pruning at 2^64", "world 1 1\nprune r0 18446744073709551616\n"),
    ("a pruning at a height of 21 digits", "world 1 1\nprune r0 100000000000000000000\n"),
    ("a pruning below nothing", "world 1 1\nprune r0 -1\n"),
    ("a pruning in hexadecimal", "world 1 1\nprune r0 a\n"),
    ("a pruning with two spaces", "world 1 1\nprune r0  1\n"),
    ("a pruning with a space behind it", "world 1 1\nprune r0 1 \n"),
    ("a pruning of two heights", "world 1 1\nprune r0 1 2\n"),
    ("a pruning in upper case", "world 1 1\nPrune r0 1\n"),
    ("a pruning without its end", "world 1 1\nprune r0 1"),
]
