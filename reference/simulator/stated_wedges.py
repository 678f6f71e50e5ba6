"""Runs that `hsim heal` is tried on: each known way in which liars keep a client waiting, as it stands before healing;
then runs with nothing to heal, and those that healing refuses or can't answer."""
from . import frames
from .frames import GENESIS, Certificate, Core, Command
from .signing import block_of, proposal_of
from .sizes import FIRST_CLIENT
from .stated_grounds import (a_client_that_halves_its_request, a_half_vote_of_a_leader, a_half_vote_of_a_voter,
                             a_lock_of_one_among_seven, a_request_right_for_one_alone, an_announced_half_vote,
                             half_certificate, half_votes_among_seven, wedge)
from .stated_runs import SET_A, Run, a_crowded_height, one_set, up_to_the_fourth_beat
from .world import Prune, Submit, Timeout

HEALED = [a_half_vote_of_a_leader, half_votes_among_seven, a_lock_of_one_among_seven, a_half_vote_of_a_voter,
          an_announced_half_vote, a_request_right_for_one_alone, a_client_that_halves_its_request]


def before_healing(run):
    return run.schedule()[0], run.events[:run.wedged]


# ---- blocks of liars

def voted_far_above():
    """A faulty leader's chain justifies genesis alone. Correct replicas vote for thirty heights of it, and only the
    liar gets these votes. So they vote for nothing that the next leaders propose."""
    run = Run(faulty=[0])
    parent = GENESIS
    for height in range(1, 31):
        core = Core(parent, height, 0)
        run.inject(proposal_of(run.config, 0, core, Certificate(GENESIS)), range(1, 4))
        parent = core.digest()
    wedge(run)
    return run


def voted_apart():
    """Each correct replica is shown a chain of its own, and votes for another height."""
    run = Run(faulty=[0])
    for replica in range(1, 4):
        parent = GENESIS
        for height in range(1, 4 * replica):
            core = Core(parent, height, 0, (Command(0, replica, b"", bytes(32 * run.config.n)),))
            run.inject(block_of(run.config, 0, replica, core, Certificate(GENESIS)), [replica])
            parent = core.digest()
        core = Core(parent, 4 * replica, 0)
        run.inject(proposal_of(run.config, 0, core, Certificate(GENESIS)), [replica])
    run.do(Submit(0, SET_A))
    return run


def withheld_blocks():
    """Two correct replicas get a first block, one of them alone three more, with certificates that are good for it: so
    it locks a block that another one never saw."""
    run = Run(faulty=[0])
    first = Core(GENESIS, 1, 0)
    run.inject(proposal_of(run.config, 0, first, Certificate(GENESIS)), [1, 2])
    parent = first
    for height in (2, 3, 4):
        receivers = [1, 2] if height == 2 else [1]
        core = Core(parent.digest(), height, height - 1)
        cert = half_certificate(run, parent.digest(), receivers)
        if len(cert.votes) < run.config.quorum:
            break
        run.inject(proposal_of(run.config, 0, core, cert), receivers)
        parent = core
    wedge(run)
    return run


def low_justified_blocks():
    """All goes well up to a lock. Then a faulty leader's blocks stand on what is certified, and justify genesis again:
    no careful replica votes for them, and others that do can't vote below them."""
    run = Run(faulty=[1])
    for _ in range(3):
        run.round(0, (0, 2, 3))
    for replica in (0, 2, 3):
        run.do(Timeout(replica))
    parent = run.world.replicas[0].highest_block
    parent, height = parent.digest, parent.height
    for _ in range(8):
        height += 1
        core = Core(parent, height, 1)
        cert = half_certificate(run, run.world.replicas[0].tree.get(parent).at(1).digest, range(4))
        run.inject(proposal_of(run.config, 1, core, cert), (0, 2, 3))
        parent = core.digest()
    wedge(run)
    return run


def crowds_up_to_room():
    """A faulty replica sends all others sixty blocks of each of four heights, so that two of each still fit."""
    run = Run(clients=1, faulty=[3])
    parents = [GENESIS] * 60
    for height in range(1, 5):
        blocks = [Core(parent, height, 0, (Command(0, number + 1, b"", bytes(32 * run.config.n)),))
                  for number, parent in enumerate(parents)]
        for core in blocks:
            for replica in range(3):
                run.inject(block_of(run.config, 3, replica, core, Certificate(GENESIS)), [replica])
        parents = [core.digest() for core in blocks]
    run.do(Submit(0, SET_A))
    return run


# ---- several, none, and what can't be healed

def two_clients_wait():
    """Requests of two clients that came to nobody."""
    run = Run(clients=3, faulty=[2, FIRST_CLIENT + 2])
    run.do(Submit(0, SET_A))
    run.do(Submit(1, b"get a\r\n"))
    return run


def nobody_got_the_request():
    run = Run()
    run.do(Submit(1, SET_A))
    return run


def in_the_middle():
    """All went well so far, and a replica has already replied."""
    run, proposal = up_to_the_fourth_beat()
    run.relay(proposal, [0])
    return run


def others_pruned():
    """Replicas but that of the highest lock pruned."""
    run = one_set()
    for replica in range(1, 4):
        run.do(Prune(replica, 1))
    run.do(Submit(0, b"get a\r\n"))
    return run


def the_leader_pruned():
    """The replica of the highest lock has forgotten blocks: healing refuses."""
    run = one_set()
    run.do(Prune(0, 1))
    run.do(Submit(0, b"get a\r\n"))
    return run


WAITING = [voted_far_above, voted_apart, withheld_blocks, low_justified_blocks, crowds_up_to_room, two_clients_wait,
           nobody_got_the_request, in_the_middle, others_pruned, the_leader_pruned]

TEXTS = [
    ("nobody waits", "world 1 1\nbeat r0\n"),
    ("only a faulty client submitted", "world 1 1 c0\nsubmit c0 67657420610d0a\n"),
    ("a first request", "world 1 1 r0\nsubmit c0 67657420610d0a\n"),
    ("a first request among ten, of which three lie", "world 3 1 r0 r4 r9\nsubmit c0 67657420610d0a\n"),
    ("a bad line", "world 1 1\nheal\n"),
    ("no such sizes", "world 0 1\n"),
    ("too many lie", "world 1 1 r0 r1\n"),
    ("a frame that wasn't sent", "world 1 1\nrelay 0 r0\n"),
]


def all_runs():
    """(name, schedule)"""
    runs = [(run.__name__.replace("_", " "), before_healing(run())) for run in HEALED]
    return runs + [(run.__name__.replace("_", " "), run().schedule()) for run in WAITING + [a_crowded_height]]
