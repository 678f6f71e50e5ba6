"""Cases of windows that show one thing each. There are four replicas and two clients; replica 0 lies, and leads
view 0. Of a chain of so many blocks all but the last three are executed."""
from .audit_lines import Life, write_windows
from .frames import Core, GENESIS
from .signing import proposal_of
from .sizes import Config
from .stated_audits import CONFIG, OTHER_SET, SET, certificates, chain, fed


def line(*lives, clients=None):
    """A line; the last replica may be made with another number of clients."""
    fields = [life.field() for life in lives]
    if clients:
        fields[-1] = lives[-1].field(clients)
    return write_windows(CONFIG, fields)


def at(number, height, first=(SET,), prune=None):
    """A replica that executed so many blocks of the branch that begins with these commands, and was then told
    to prune."""
    cores = chain(first, *[()] * (height + 2))
    life = fed(number, cores, certificates(cores, (0, 1, 2)))
    if prune is not None:
        life.bring("prune:%d" % prune)
    return life


def agreements():
    """All have pruned, each as it liked; none has; one may be told to prune at 0, which forgets nothing, or
    far above, which leaves the last three blocks."""
    return [line(at(1, 7, prune=5), at(2, 7, prune=7), at(3, 7, prune=3)),
            line(at(1, 7), at(2, 7), at(3, 7)),
            line(at(1, 7, prune=0), at(2, 6, prune=0), at(3, 5, prune=0)),
            line(at(1, 7, prune=99), at(2, 6, prune=99), at(3, 5, prune=99))]


def edges_of_a_window():
    """The leader's horizon is 6: it shows the block of height 4, and not the one of height 3. What the lower
    one shows is never asked."""
    return [line(at(1, 7, prune=6), at(2, 7), at(3, 4)),
            line(at(1, 7, prune=6), at(2, 7), at(3, 3)),
            line(at(3, 3, prune=3), at(1, 7, prune=6), at(2, 4, prune=4)),
            line(at(3, 3, prune=3), at(1, 7, prune=5), at(2, 4, prune=4))]


def who_executed_nothing():
    """Genesis is on each branch, and no window loses it: also where all made no step."""
    new = [Life(CONFIG, number) for number in (0, 2, 3)]
    told = Life(CONFIG, 2)
    told.bring("prune:5")
    return [line(at(1, 7, prune=7), new[1], new[2]), line(new[1], new[2], at(1, 7, prune=7)),
            line(*new), line(told, at(1, 2, prune=1), new[2])]


def the_first_leads():
    """Of two that executed equally high the first leads, though the other one's window shows more."""
    wide, narrow, low = at(1, 7, prune=1), at(2, 7, prune=7), at(3, 2)
    return [line(wide, narrow, low), line(narrow, wide, low), line(low, narrow, wide), line(low, wide, narrow)]


def the_first_is_named():
    """Two are missed by the leader's window, or stand on another branch: the first one is named."""
    high = at(1, 9, prune=9)
    return [line(high, at(2, 3), at(3, 2)), line(at(3, 2), high, at(2, 3)),
            line(high, at(2, 7, (OTHER_SET,)), at(3, 8, (OTHER_SET,))),
            line(at(3, 8, (OTHER_SET,)), at(2, 7, (OTHER_SET,)), high)]


def forks():
    """On another branch of one height, lower, or higher; pruned or not. A branch without a command forks too,
    though the histories agree."""
    lines = []
    for prune in (None, 7):
        lines += [line(at(1, 7, prune=prune), at(2, 7, (OTHER_SET,), prune), at(3, 7)),
                  line(at(2, 7, (OTHER_SET,), prune), at(1, 7, prune=prune), at(3, 7)),
                  line(at(1, 7, prune=prune), at(2, 6, (OTHER_SET,), prune), at(3, 7)),
                  line(at(1, 7, prune=prune), at(2, 8, (OTHER_SET,), prune), at(3, 7))]
    return lines + [line(at(1, 7, prune=7), at(2, 6, ()), at(3, 7))]


def forks_out_of_sight():
    """Where the leader's window shows nothing at the other branch's height, it isn't met. A fork is told
    before that, wherever it stands in the list."""
    unseen, missed, seen = at(2, 3, (OTHER_SET,)), at(3, 2), at(0, 6, (OTHER_SET,))
    high = at(1, 7, prune=7)
    return [line(high, unseen, missed), line(high, unseen, missed, seen), line(seen, missed, unseen, high),
            line(unseen, seen, high, missed)]


def one_that_goes_on():
    """What comes after a pruning is shown, and the horizon stays. One that was stopped by a conflict isn't
    pruned any more."""
    cores = chain((SET,), *[()] * 12)
    life = fed(1, cores[:8], certificates(cores[:8], (0, 1, 2)))
    life.bring("prune:5")
    for core, cert in list(zip(cores, certificates(cores, (0, 1, 2))))[8:]:
        life.bring(proposal_of(CONFIG, 0, core, cert))
    stopped = at(2, 4)
    other = chain((OTHER_SET,), *[()] * 4)
    for core, cert in zip(other, certificates(other, (0, 2, 3))):
        stopped.bring(proposal_of(CONFIG, 0, core, cert))
    stopped.bring("prune:4")
    return [line(life, at(2, 3), at(3, 9)), line(life, at(2, 2), at(3, 9)),
            line(stopped, at(1, 4, prune=2), at(3, 1))]


def one_digest_apart():
    """Branches that part in the middle block of three, or in the last one alone."""
    lines = []
    for parting in (2, 3):
        blocks = [(SET,), (), (), (), (), ()]
        blocks[parting - 1] = (OTHER_SET,)
        cores = chain(*blocks)
        life = fed(2, cores, certificates(cores, (0, 1, 2)))
        lines += [line(at(1, 3), life, at(3, 3)), line(at(1, 4), life, at(3, 3))]
    return lines


def a_skipped_block():
    """The block of height 2 justifies genesis, so that none of height 1 is decided by itself."""
    first = Core(GENESIS, 1, 0, (SET,))
    second = Core(first.digest(), 2, 0)
    cores = [first, second]
    for height in range(3, 7):
        cores.append(Core(cores[-1].digest(), height, height - 1))
    certs = certificates(cores, (0, 1, 2))
    certs[1] = certs[0]
    lives = [fed(number, cores[:count], certs) for number, count in ((1, 6), (2, 6), (3, 5))]
    lives[0].bring("prune:3")
    return [line(*lives)]


def refused():
    """Two are too few, and so are none, one twice, and one of another number of clients. Of seven five are
    enough."""
    seven = Config(2, 1)
    return [line(at(1, 7, prune=5), at(2, 7)), line(), line(at(1, 7), at(2, 7), at(1, 7)),
            line(at(1, 7), at(2, 7), at(3, 7), clients=3),
            write_windows(seven, ["0", "2", "3", "5", "6"]), write_windows(seven, ["0", "2", "3", "5"])]


def all_cases():
    makers = (agreements, edges_of_a_window, who_executed_nothing, the_first_leads, the_first_is_named, forks,
              forks_out_of_sight, one_that_goes_on, one_digest_apart, a_skipped_block, refused)
    return [each for make in makers for each in make()]
