"""Cases of audits that show one thing each of blocks that are taken on grounds. Lives and branches are those of
`stated_audits`; replica 0 lies."""
from .audit import Collision, MissingTake, MissingVote
from .audit_lines import Life
from .frames import Certificate, VoteFrame, write
from .signing import block_of, certificate_of, new_view_of, proposal_of, spoilt_for, vote_of
from .stated_audits import A, A1, A2, B, B1, B2, B3, CONFIG, NOTHING, OF_A, OF_B, case, fed, r1, r2_with_a, r2_with_b


def gathered(life, cores, senders):
    """The replica takes these for so many senders."""
    for core in cores:
        copies = [block_of(CONFIG, sender, life.replica.me, core, Certificate(core.parent)) for sender in senders]
        life.bring("gather:" + "+".join(copy.hex() for copy in copies))
    return life


def by_copies(number, cores, senders):
    return gathered(Life(CONFIG, number), cores, senders)


def takes(receiver, sender, *digests):
    return [MissingTake(receiver, sender, digest) for digest in digests]


def a_fork_by_copies():
    """Replica 3 takes branch B for copies of replicas 0 and 2, of which the second took branch A. So its first block is
    missing there. No other reason holds; nor does any where replica 2 isn't handed in, or took branch B."""
    asked = takes(3, 2, B1, B2, A1, NOTHING) + takes(3, 0, B1) + takes(3, 1, B1) + takes(2, 3, B1) + takes(1, 2, A1)
    asked += [MissingVote(3, 2, B1), MissingVote(3, 2, B2)]
    lives = [r1(), r2_with_a(), by_copies(3, B, (0, 2))]
    return [case(lives, asked), case(lives[:1] + [r2_with_b()] + lives[2:], asked), case(lives[2:], asked),
            case([fed(0, A, OF_A), *lives], asked), case([fed(0, A, OF_A), lives[0], lives[2]], asked)]


def copies_of_what_was_taken():
    """Replica 3 takes branch A for copies of the two others, or one block of it and proposals then. All agree."""
    asked = takes(3, 2, A1) + takes(3, 1, A1, A2)
    late = by_copies(3, A[:1], (1, 2))
    for core, cert in zip(A[1:], OF_A[1:]):
        late.bring(proposal_of(CONFIG, 0, core, cert))
    return [case([r1(), r2_with_a(), life], asked) for life in (by_copies(3, A, (2, 1)), late)]


def copies_in_a_circle():
    """Replicas 2 and 3 each name the other one as a sender of what neither took before."""
    asked = takes(3, 2, B1, B2) + takes(2, 3, B1, B2)
    return [case([r1(), by_copies(2, B, (0, 3)), by_copies(3, B, (0, 2))], asked)]


def a_sender_behind_its_front():
    """Replica 2 took all blocks, but for the second one it counted a vote that replica 3 or 1 never gave."""
    third = fed(2, B, OF_B)
    first = gathered(fed(2, B[:2], [OF_B[0], certificate_of(CONFIG, B1, (0, 1, 2))]), B[2:], (0, 3))
    asked = [MissingVote(2, 1, B1), MissingVote(2, 3, B1)] + takes(3, 2, B1, B2, B3) + takes(2, 3, B3)
    return [case([r1(), life, by_copies(3, B, (0, 2))], asked) for life in (third, first)]


def too_few_copies():
    """Copies of one sender, or of one twice, are passed over."""
    lives = [by_copies(3, B, senders) for senders in ((2,), (2, 2), (0, 0, 2))]
    return [case([r1(), r2_with_a(), life], takes(3, 2, B1)) for life in lives]


def an_offer_with_an_own_certificate():
    """Replica 3 makes a certificate of single votes, by which it takes the next block of branch B. It counts them, and
    replica 2, which took branch A, gave none. Taken for an earlier block, a block counts nothing."""
    life = Life(CONFIG, 3)
    life.bring(proposal_of(CONFIG, 0, B[0], OF_B[0]))
    for voter in (0, 1, 2):
        life.bring(write(VoteFrame(B1, vote_of(CONFIG, voter, B1))))
    for core in (B[1], B[1]):
        life.bring("offer:" + block_of(CONFIG, 0, 3, core, Certificate(B1)).hex())
    life.bring("offer:" + block_of(CONFIG, 0, 3, B[2], Certificate(B2)).hex())
    gathered(life, B[2:], (0, 2))
    asked = [MissingVote(3, voter, B1) for voter in (0, 1, 2)] + takes(3, 2, B2, B3)
    return [case([r1(), r2_with_a(), life], asked)]


def an_own_certificate_of_many_votes():
    """Of the announced certificate's four votes one is spoilt for replica 3, which doesn't count it for the block that
    it is offered then."""
    life = Life(CONFIG, 3)
    life.bring(proposal_of(CONFIG, 0, B[0], OF_B[0]))
    life.bring(new_view_of(CONFIG, 0, 0, spoilt_for(certificate_of(CONFIG, B1, range(4)), 2, [3])))
    life.bring("offer:" + block_of(CONFIG, 0, 3, B[1], Certificate(B1)).hex())
    gathered(life, B[2:], (0, 1))
    return [case([r1(), r2_with_a(), life], [MissingVote(3, voter, B1) for voter in range(4)] + takes(3, 1, B3))]


def steps_after_a_lead():
    """A lead is a step, so that those behind it have other numbers. A refused one is none."""
    life = r1()
    for digest in (A1, NOTHING, A2):
        life.bring("lead:" + digest.hex())
    life.bring(proposal_of(CONFIG, 0, A[0], OF_A[0]))
    asked = [Collision((1, 0), (1, step)) for step in range(4, 7)]
    return [case([life, r2_with_a(), fed(3, A, OF_A)], asked)]


def all_cases():
    return (a_fork_by_copies() + copies_of_what_was_taken() + copies_in_a_circle() + a_sender_behind_its_front()
            + too_few_copies() + an_offer_with_an_own_certificate() + an_own_certificate_of_many_votes()
            + steps_after_a_lead())
