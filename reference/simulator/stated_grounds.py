"""Runs that votes and requests wedge whose tags are right for some receivers alone, and that go on by grounds: half
votes of a leader and of a voter, half requests, among four replicas and among seven. Then runs that show one thing
each of offers, copies, leads and questions."""
from . import frames
from .frames import GENESIS, Certificate, Core, Kind, RequestFrame, VoteFrame, kind_of, write
from .healing import Healer
from .signing import (block_of, certificate_of, command_of, fetch_of, half_command, half_vote, new_view_of, proposal_of,
                      reply_of, request_of, vote_of)
from .sizes import FIRST_CLIENT
from .stated_runs import C1, SET_A, Run
from .world import Ask, Beat, Gather, Lead, Offer, Submit, Timeout


def half_certificate(run, digest, receivers):
    """The votes that were sent for a block, and those of liars, which are right for these alone."""
    votes = {voter: half_vote(run.config, voter, digest, receivers) for voter in run.faulty}
    for sent in run.world.record:
        if kind_of(sent.data) == Kind.VOTE:
            frame = frames.read(run.config, sent.data)
            if frame.digest == digest and len(votes) < run.config.quorum:
                votes[frame.vote.voter] = frame.vote
    return Certificate(digest, tuple(votes[voter] for voter in sorted(votes)))


def correct(run):
    return sorted(run.world.replicas)


def next_view(run):
    """The leader of the view to which all correct replicas go on."""
    for replica in correct(run):
        run.do(Timeout(replica))
    return run.world.replicas[correct(run)[0]].pacemaker.view % run.config.n


def try_in_vain(run):
    """The next correct leader proposes, and no quorum votes for it."""
    leader = next_view(run)
    while leader not in correct(run):
        leader = next_view(run)
    before = run.world.replicas[leader].highest
    run.round(leader, correct(run))
    assert run.world.replicas[leader].highest == before


def wedge(run, client=0):
    """A client waits, and no leader brings it its receipt."""
    if not run.world.sessions[client].outstanding:
        run.do(Submit(client, SET_A))
    try_in_vain(run)
    run.wedged = len(run.events)


def healed(run, client=0):
    """The run goes on, up to the client's receipt."""
    wedge(run, client)
    healer = Healer(run.world)
    assert healer.heal(client)
    run.events += healer.events
    return run


# ---- half votes of leaders

def wedged_by_a_leader(faulty=(0,), receivers=range(1, 4)):
    """Faulty replicas lead, the first of them at first. Of the first block each of these correct replicas gets a
    certificate that is good for itself alone, with the next block."""
    run = Run(faulty=faulty, faults=len(faulty))
    first = Core(GENESIS, 1, 0)
    run.inject(proposal_of(run.config, 0, first, Certificate(GENESIS)), receivers)
    second = Core(first.digest(), 2, 1)
    for replica in receivers:
        cert = half_certificate(run, first.digest(), [replica])
        run.inject(proposal_of(run.config, 0, second, cert), [replica])
    return run, second


def a_half_vote_of_a_leader():
    return healed(wedged_by_a_leader()[0])


def half_votes_among_seven():
    """Among seven, two of which lie. Two correct ones know nothing of the blocks."""
    return healed(wedged_by_a_leader((0, 1), (2, 3, 4))[0])


def a_lock_of_one_among_seven():
    """The same, and one correct replica alone locks the first block."""
    run, second = wedged_by_a_leader((0, 1), (2, 3, 4))
    third = Core(second.digest(), 3, 2)
    run.inject(proposal_of(run.config, 0, third, half_certificate(run, second.digest(), [2])), [2])
    assert run.world.replicas[2].lock.height == 1
    return healed(run)


# ---- half votes of voters

def half_vote_first(run, leader):
    """The leader proposes. A liar votes first, rightly for the leader alone."""
    [proposal] = run.do(Beat(leader))
    digest = frames.read(run.config, run.world.record[proposal].data).core.digest()
    sent = run.relay(proposal, [leader])
    for liar in run.faulty:
        run.inject(write(VoteFrame(digest, half_vote(run.config, liar, digest, [leader]))), [leader])
    sent += run.relay(proposal, [replica for replica in correct(run) if replica != leader])
    for vote in sent:
        run.relay(vote, [leader])
    return run.world.replicas[leader].highest.digest == digest


def a_half_vote_of_a_voter():
    """Each correct leader's first certificate has a liar's half vote, so the others refuse what it proposes."""
    run = Run(faulty=[3])
    run.do(Submit(0, SET_A))
    for leader in (0, 1, 2):
        while not half_vote_first(run, leader):
            pass
        next_view(run)
    next_view(run)
    return healed(run)


def an_offer_and_two_copies():
    """The leader's first certificate has a liar's half vote. Once the others' votes came to replica 1, too, it takes
    the next block by its own certificate. Replica 2 gets two copies of the block, and then votes."""
    run = Run(clients=1, faulty=[3])
    [first] = run.do(Beat(0))
    votes = run.relay(first, [0, 1, 2])
    digest = frames.read(run.config, run.world.record[first].data).core.digest()
    run.relay(votes[0], [0])
    run.relay(votes[1], [0])
    run.inject(write(VoteFrame(digest, half_vote(run.config, 3, digest, [0]))), [0])
    [second] = run.do(Beat(0))
    run.relay(second, [0, 1, 2])
    for vote in votes:
        run.relay(vote, [1])
    run.do(Offer(1, second))
    digest = frames.read(run.config, run.world.record[second].data).core.digest()
    questions = [run.do(Ask(2, holder, digest))[0] for holder in (0, 1)]
    copies = [run.relay(question, [holder])[0] for holder, question in enumerate(questions)]
    run.do(Gather(2, tuple(copies)))
    run.do(Offer(2, second))
    return run


def an_announced_half_vote():
    """A block that two correct replicas have: each of them is announced a certificate of it that is good for itself
    alone. The third gets the block by itself."""
    run = Run(faulty=[0])
    block = Core(GENESIS, 1, 0)
    run.inject(proposal_of(run.config, 0, block, Certificate(GENESIS)), [1, 2])
    run.inject(block_of(run.config, 0, 3, block, Certificate(GENESIS)), [3])
    for replica in (1, 2, 3):
        run.inject(new_view_of(run.config, 0, 0, half_certificate(run, block.digest(), [replica])), [replica])
    return healed(run)


# ---- half requests

def inject_halves(run, command):
    for replica in correct(run):
        run.inject(write(RequestFrame(half_command(command, [replica]))), [replica])


def a_request_right_for_one_alone():
    """A liar changes a request on its way: each correct replica gets a copy that is right for itself alone."""
    run = Run(faulty=[3])
    [request] = run.do(Submit(0, SET_A))
    inject_halves(run, frames.read(run.config, run.world.record[request].data).command)
    return healed(run)


def a_client_that_halves_its_request():
    """No replica is faulty. A client's request is right for one replica alone, for each another copy."""
    run = Run(faulty=[FIRST_CLIENT + 1])
    inject_halves(run, command_of(run.config, 1, 1, SET_A))
    return healed(run)


EXAMPLES = [a_half_vote_of_a_leader, a_half_vote_of_a_voter, an_announced_half_vote, a_request_right_for_one_alone,
            a_client_that_halves_its_request, an_offer_and_two_copies, half_votes_among_seven,
            a_lock_of_one_among_seven]


# ---- one thing each

def chain(config, height, voters=()):
    """Cores of a chain in which each block justifies the one below, with a certificate of these voters for that."""
    below, found = GENESIS, []
    for number in range(1, height + 1):
        core = Core(below, number, number - 1)
        found.append((core, certificate_of(config, below, voters)))
        below = core.digest()
    return found


def taken(run, replica, height):
    """A replica takes the chain up to a height; all cores of a longer chain."""
    cores = chain(run.config, height + 3, (0, 1, 2))
    for core, cert in cores[:height]:
        run.inject(block_of(run.config, 3, replica, core, cert), [replica])
    return [core for core, _ in cores]


def without_votes(core, cores):
    """A certificate without votes for what a block of the chain justifies."""
    return Certificate(cores[core.justify - 1].digest() if core.justify else GENESIS)


def offer(run, replica, *pieces):
    for data in pieces:
        run.do(Offer(replica, data))


def offers_of_each_kind():
    """Only proposals, blocks and announcements are offered, by their own tags."""
    run = Run(faulty=[3])
    config, core = run.config, Core(GENESIS, 1, 0)
    [request] = run.do(Submit(0, SET_A))
    cert, digest, proposal = Certificate(GENESIS), core.digest(), proposal_of(config, 0, core, Certificate(GENESIS))
    run.do(Offer(1, request))
    offer(run, 1, write(VoteFrame(digest, vote_of(config, 3, digest))), fetch_of(config, 3, 1, digest),
          reply_of(config, 3, 0, 1, 1, b"STORED\r\n"), request_of(config, 1, 1, SET_A), b"", b"\x82",
          block_of(config, 3, 2, core, cert), block_of(config, 3, 1, core, cert), proposal[:-1],
          proposal[:-96] + bytes(96), proposal, new_view_of(config, 3, 5, Certificate(bytes(32))))
    return run


def offered_by_an_earlier_take():
    """A block is taken where another one justifies the same; not where none does. It goes out without votes."""
    run = Run(faulty=[3])
    cores = taken(run, 1, 2)
    sibling = Core(cores[1].digest(), 3, 1)
    cert = without_votes(sibling, cores)
    offer(run, 1, block_of(run.config, 3, 1, cores[2], certificate_of(run.config, cores[1].digest(), (0, 2, 3))),
          block_of(run.config, 3, 2, sibling, cert), proposal_of(run.config, 0, sibling, cert)[:-96] + bytes(96),
          block_of(run.config, 3, 1, sibling, cert), fetch_of(run.config, 3, 1, sibling.digest()))
    run.inject(fetch_of(run.config, 3, 1, sibling.digest()), [1])
    return run


def offered_by_an_own_certificate():
    """Single votes make a certificate, by which a block is taken, and with which it is kept. An offered block that
    stands in the tree gets its vote."""
    run = Run(faulty=[3])
    cores = taken(run, 1, 1)
    data = proposal_of(run.config, 0, cores[1], without_votes(cores[1], cores))
    for voter in (0, 2, 3):
        offer(run, 1, data)
        run.inject(write(VoteFrame(cores[0].digest(), vote_of(run.config, voter, cores[0].digest()))), [1])
    offer(run, 1, data, data)
    run.inject(fetch_of(run.config, 3, 1, cores[1].digest()), [1])
    offer(run, 1, block_of(run.config, 3, 1, cores[1], without_votes(cores[1], cores)))
    return run


def offered_unclear():
    """A block with a command that is right for others is taken, and gets no vote; nor does the next one. A block beside
    it does."""
    run = Run(faulty=[3, C1])
    cores = taken(run, 1, 2)
    command = half_command(command_of(run.config, 1, 1, SET_A), [0, 2, 3])
    unclear = Core(cores[1].digest(), 3, 1, (command,))
    for core in (unclear, Core(unclear.digest(), 4, 1), Core(cores[1].digest(), 3, 1)):
        offer(run, 1, proposal_of(run.config, 0, core, without_votes(core, cores)))
    return run


def offers_that_are_refused():
    """For want of a parent, and for all that is wrong with a block before its grounds are looked at."""
    run = Run(faulty=[3])
    cores = taken(run, 1, 2)
    tall, low = Core(cores[1].digest(), 4, 1), Core(cores[1].digest(), 3, 0)
    offer(run, 1, block_of(run.config, 3, 1, cores[3], Certificate(cores[2].digest())),
          proposal_of(run.config, 1, cores[3], Certificate(cores[2].digest())),
          block_of(run.config, 3, 1, tall, Certificate(cores[0].digest())),
          block_of(run.config, 3, 1, low, Certificate(cores[0].digest())),
          block_of(run.config, 3, 1, cores[1], Certificate(GENESIS)),
          block_of(run.config, 3, 1, low, Certificate(GENESIS)))
    return run


def offered_views():
    """Views of announcements count whose certificates aren't good, or are of blocks that nobody has."""
    run = Run(faulty=[3])
    for sender, view in ((3, 2), (2, 1), (0, 2)):
        data = new_view_of(run.config, sender, view, Certificate(bytes([view]) * 32))
        offer(run, 1, data[:-96] + bytes(96), data)
    return run


def copies_of(run, core, cert, senders, to=1):
    return [block_of(run.config, sender, to, core, cert) for sender in senders]


def gathered_copies():
    """Two senders of four are enough; one isn't, also twice. What is no frame is left out."""
    run = Run(faulty=[3])
    cores = taken(run, 1, 1)
    one, other, third = copies_of(run, cores[1], without_votes(cores[1], cores), (2, 3, 0))
    for pieces in ([one], [one, one], [one, other, one], [b"", b"\x82"], [one, b""], [b"", other, b"x", one], [one],
                   [one, one], [one, other, third], [one, other, third, one], [one, other, third, one, other]):
        run.do(Gather(1, tuple(pieces)))
    run.inject(fetch_of(run.config, 3, 1, cores[1].digest()), [1])
    return run


def gathered_with_others():
    """Frames that aren't copies of the first one."""
    run = Run(faulty=[3])
    cores, config = taken(run, 1, 1), run.config
    cert = without_votes(cores[1], cores)
    one, other = copies_of(run, cores[1], cert, (2, 3))
    [anothers], [another] = copies_of(run, cores[1], cert, (3,), 2), copies_of(run, Core(GENESIS, 1, 0), cert, (3,))
    [elsewhere] = copies_of(run, cores[1], Certificate(bytes(32)), (3,))
    vote = write(VoteFrame(cores[0].digest(), vote_of(config, 3, cores[0].digest())))
    for pieces in ([vote, one, other], [one, other, vote], [one, anothers], [one, another], [one, elsewhere],
                   [elsewhere, *copies_of(run, cores[1], Certificate(bytes(32)), (2,))],
                   copies_of(run, cores[2], Certificate(cores[1].digest()), (2, 3)),
                   [proposal_of(config, 0, cores[1], cert), one], [one, other]):
        run.do(Gather(1, tuple(pieces)))
    return run


def leads():
    """From the lock and above it, where a taken block justifies the block; the next proposal stands there, without the
    request that waited. A certificate that is announced takes the place of the one without votes."""
    run = Run(faulty=[3])
    config = run.config
    run.do(Lead(1, GENESIS))
    cores = taken(run, 1, 4)
    [request] = run.do(Submit(0, SET_A))
    run.relay(request, [1])
    for digest in [GENESIS, bytes(32)] + [core.digest() for core in cores[:5]]:
        run.do(Lead(1, digest))
    run.do(Timeout(1))
    run.do(Lead(1, cores[1].digest()))
    run.do(Timeout(1))
    run.inject(new_view_of(config, 2, 1, certificate_of(config, cores[1].digest(), (0, 2, 3))), [1])
    for _ in range(3):
        run.do(Timeout(1))
    run.do(Beat(1))
    return run


def a_lead_forgets_votes():
    """Votes that were collected before a lead make no certificate after it."""
    run = Run(faulty=[3])
    cores = taken(run, 1, 2)
    votes = [write(VoteFrame(cores[1].digest(), vote_of(run.config, voter, cores[1].digest()))) for voter in range(4)]
    for data in votes[:2]:
        run.inject(data, [1])
    run.do(Lead(1, cores[0].digest()))
    for data in votes[2:] + votes[:1]:
        run.inject(data, [1])
        run.do(Timeout(1))
    return run


def questions():
    """Anyone is asked for anything; nobody asks himself."""
    run = Run(faulty=[3])
    for to in range(4):
        run.do(Ask(1, to, GENESIS))
    run.do(Ask(3, 1, GENESIS))
    run.do(Ask(1, 1, bytes(32)))
    return run


def at_a_stopped_replica():
    """A replica that met a conflict answers 20 to leads and questions, and to all that passes the checks."""
    run = Run(faulty=[3])
    cores = taken(run, 1, 4)
    forks = [Core(GENESIS, 1, 0, (command_of(run.config, 0, 1, SET_A),))]
    for height in range(2, 5):
        forks.append(Core(forks[-1].digest(), height, height - 1))
    for core in forks:
        cert = certificate_of(run.config, core.parent, (0, 1, 2))
        run.inject(block_of(run.config, 3, 1, core, cert), [1])
    run.do(Lead(1, cores[1].digest()))
    run.do(Ask(1, 2, GENESIS))
    copies = copies_of(run, cores[4], Certificate(cores[3].digest()), (2, 3))
    run.do(Gather(1, tuple(copies)))
    offer(run, 1, copies[0], b"", new_view_of(run.config, 2, 1, Certificate(GENESIS)))
    return run


def all_runs():
    """(name, schedule)"""
    runs = [
        ("offers of each kind of frame", offers_of_each_kind()),
        ("a block is offered that an earlier take gives grounds", offered_by_an_earlier_take()),
        ("a block is offered that an own certificate gives grounds", offered_by_an_own_certificate()),
        ("blocks are offered of which two are not clear", offered_unclear()),
        ("offers that are refused", offers_that_are_refused()),
        ("views of announcements that are offered", offered_views()),
        ("copies that come together", gathered_copies()),
        ("copies among other frames", gathered_with_others()),
        ("leads from the lock and from elsewhere", leads()),
        ("a lead forgets votes", a_lead_forgets_votes()),
        ("questions to anyone", questions()),
        ("what comes to a stopped replica", at_a_stopped_replica()),
    ]
    runs += [(run.__name__.replace("_", " "), run()) for run in EXAMPLES]
    return [(name, run.schedule()) for name, run in runs]


DIGITS = "0" * 64

# Schedules that are refused as a whole, or whose lines are bad, as text.
TEXTS = [
    ("events of a faulty replica", "world 1 1 r2\noffer-bytes r2 \ngather r2 x x00\nlead r2 %s\nask r2 r1 %s\n"
     % (DIGITS, DIGITS)),
    ("an offer to a replica that isn't there", "world 1 1\nbeat r0\noffer 0 r4\n"),
    ("an offer of a frame that isn't there", "world 1 1\nbeat r0\noffer 0 r1\noffer 1 r1\n"),
    ("an offer to a client", "world 1 1\nbeat r0\noffer 0 c0\n"),
    ("an offer of bytes to a client", "world 1 1\noffer-bytes c0 00\n"),
    ("an offer of no bytes", "world 1 1\noffer-bytes r0 \n"),
    ("an offer without a space for bytes", "world 1 1\noffer-bytes r0\n"),
    ("an offer of half a byte", "world 1 1\noffer-bytes r0 0\n"),
    ("an offer of bytes in upper case", "world 1 1\noffer-bytes r0 AA\n"),
    ("an offer of a number with a leading zero", "world 1 1\nbeat r0\noffer 00 r0\n"),
    ("an offer of a number of 2^64", "world 1 1\noffer 18446744073709551616 r0\n"),
    ("an offer to two", "world 1 1\nbeat r0\noffer 0 r0 r1\n"),
    ("nothing is gathered", "world 1 1\ngather r0\n"),
    ("nothing is gathered behind a space", "world 1 1\ngather r0 \n"),
    ("no bytes are gathered", "world 1 1\ngather r0 x\ngather r0 x x\n"),
    ("frames are gathered of which one isn't there", "world 1 1\nbeat r0\ngather r0 0 x\ngather r0 x 0 1\n"),
    ("frames are gathered by a replica that isn't there", "world 1 1\nbeat r0\ngather r4 0\n"),
    ("frames are gathered by a client", "world 1 1\nbeat r0\ngather c0 0\n"),
    ("half a byte is gathered", "world 1 1\ngather r0 x x0\n"),
    ("a space behind what is gathered", "world 1 1\ngather r0 x \n"),
    ("two spaces before what is gathered", "world 1 1\ngather r0  x\n"),
    ("what is gathered has a leading zero", "world 1 1\nbeat r0\ngather r0 00\n"),
    ("many are gathered", "world 1 1\nbeat r0\ngather r1%s\n" % (" 0" * 100)),
    ("a lead of a replica that isn't there", "world 1 1\nlead r4 %s\n" % DIGITS),
    ("a lead of a client", "world 1 1\nlead c0 %s\n" % DIGITS),
    ("a lead from 63 digits", "world 1 1\nlead r0 %s\n" % DIGITS[1:]),
    ("a lead from 66 digits", "world 1 1\nlead r0 %s00\n" % DIGITS),
    ("a lead from digits in upper case", "world 1 1\nlead r0 %s\n" % ("A" * 64)),
    ("a lead without a block", "world 1 1\nlead r0\n"),
    ("a question to a replica that isn't there", "world 1 1\nask r0 r4 %s\n" % DIGITS),
    ("a question of a replica that isn't there", "world 1 1\nask r4 r0 %s\n" % DIGITS),
    ("a question to a faulty replica", "world 1 1 r3\nask r0 r3 %s\n" % DIGITS),
    ("a question to a client", "world 1 1\nask r0 c0 %s\n" % DIGITS),
    ("a question without a block", "world 1 1\nask r0 r1\n"),
    ("a question for 62 digits", "world 1 1\nask r0 r1 %s\n" % DIGITS[2:]),
    ("an offer without its end", "world 1 1\nbeat r0\noffer 0 r0"),
]
