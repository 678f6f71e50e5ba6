"""Cases of steps in `replica_cases` that show one thing each: a replica with its inputs."""
from .frames import GENESIS, Core, respelled
from .signing import (block_of, certificate_of, command_of, fetch_of, new_view_of, proposal_of, request_of,
                      spoilt_for)
from .sizes import Config
from .stated_audits import lives_of
from .stated_runs import GET_A, one_set

COMMANDS = 16


def line(config, number, inputs):
    words = [given if isinstance(given, str) else "%d:%s" % (number, given.hex()) for given in inputs]
    return " ".join(["%d %d %d alone" % (config.f, config.clients, number)] + words)


def a_full_pool():
    """4,096 requests wait: a new one is refused, one that waits already isn't, and the leader proposes the
    first ones. No more wait then either."""
    config = Config(1, 2)
    new, waits = request_of(config, 1, 1, GET_A), request_of(config, 0, 7, GET_A)
    return line(config, 0, ["requests:4096", new, waits, "beat", waits, new])


def a_request_again():
    """A request that comes again after its reply is answered with the same frame, each time."""
    run = one_set()
    asked = run.world.record[0].data
    return line(run.config, 1, lives_of(run)[1].inputs + [asked, asked])


def block_payload(number):
    return b"set k%02d 0 0 2\r\n%02d\r\n" % (number, number)


def a_whole_block():
    """Four proposals of replica 0, of which the last decides the first: it has 16 commands of one client."""
    config = Config(1, 1)
    commands = tuple(command_of(config, 0, number + 1, block_payload(number)) for number in range(COMMANDS))
    below, justified, inputs = GENESIS, 0, []
    for height in range(1, 5):
        core = Core(below, height, justified, commands if height == 1 else ())
        cert = certificate_of(config, below, (0, 2, 3))
        inputs.append("0:1:" + proposal_of(config, 0, core, cert).hex())
        below, justified = core.digest(), height
    return " ".join(["1 1 1 1"] + inputs)


def a_proposal_by_each_share():
    """Each of two workers of replica 1 brings the first proposal: both steps stand, and one vote goes out in all."""
    config = Config(1, 1)
    given = proposal_of(config, 0, Core(GENESIS, 1, 0), certificate_of(config, GENESIS, ())).hex()
    return "1 1 1 2 0:1:%s 1:1:%s" % (given, given)


def a_cut_certificate():
    """Replica 1 takes a block of version 1 whose certificate has four votes, of which one is spoilt for it. Asked for
    that block, it sends the other three, in version 2; and so it does in its announcement, once an announcement of
    version 1 brought it four votes for the block, and in its proposal."""
    config = Config(1, 1)
    first = Core(GENESIS, 1, 0)
    second = Core(first.digest(), 2, 1)
    cert = spoilt_for(certificate_of(config, first.digest(), range(4)), 0, [1])
    above = spoilt_for(certificate_of(config, second.digest(), range(4)), 2, [1])
    inputs = [proposal_of(config, 0, first, certificate_of(config, GENESIS, ())), block_of(config, 0, 1, second, cert),
              fetch_of(config, 2, 1, second.digest()), new_view_of(config, 0, 1, above), "timeout",
              new_view_of(config, 3, 1, above), "beat"]
    by_share = ["0:" + (given if isinstance(given, str) else "1:" + given.hex()) for given in inputs]
    return [line(config, 1, inputs), " ".join(["1 1 1 1"] + by_share)]


def first_steps(f):
    """Replica 1 gets the first proposal in version 1, and a question behind it; then both in version 2."""
    config = Config(f, 1)
    core = Core(GENESIS, 1, 0)
    given = [proposal_of(config, 0, core, certificate_of(config, GENESIS, ())),
             fetch_of(config, 0, 1, core.digest())]
    return line(config, 1, [respelled(data, version) for version in (1, 2) for data in given])


def a_step_with_many_votes(f):
    """The second proposal, whose certificate has a quorum's votes; its block is asked for."""
    config = Config(f, 1)
    first = Core(GENESIS, 1, 0)
    second = Core(first.digest(), 2, 1)
    cert = certificate_of(config, first.digest(), range(config.n - config.quorum, config.n))
    return line(config, 1, [proposal_of(config, 0, first, certificate_of(config, GENESIS, ())),
                            proposal_of(config, 0, second, cert), fetch_of(config, 0, 1, second.digest())])


def all_cases():
    return ([a_full_pool(), a_request_again(), a_whole_block(), a_proposal_by_each_share()] + a_cut_certificate()
            + [first_steps(f) for f in (1, 4, 5, 10)] + [a_step_with_many_votes(f) for f in (5, 10)])
