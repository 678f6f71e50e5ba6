"""One frame of each kind, that is cut anywhere and changed in any byte, as cases of checks in `replica_cases`; and
cases that show one thing each of the two versions."""
from . import stated_runs
from .frames import GENESIS, KIND_NAMES, Core, Kind, kind_of, read, respelled
from .own_frames import OwnFrames
from .signing import block_of, certificate_of, command_of, new_view_of, proposal_of, spoilt_for
from .sizes import Config
from .stated_runs import GET_A
from .tags import Keyring

RECEIVER = 0


def first_frames(run):
    """The first frame of each kind of a run's record, by kind."""
    found = {}
    for sent in run.world.record:
        found.setdefault(Kind(kind_of(sent.data)), sent.data)
    return found


def one_of_each_kind():
    """By kind: those of the run with one set and a view change; and replica 1's question to the receiver for
    the first block, and this block for it."""
    run = stated_runs.view_change()
    found, own = first_frames(run), OwnFrames(Keyring(run.config, 1))
    proposal = read(run.config, found[Kind.PROPOSAL])
    found[Kind.FETCH] = own.fetch(RECEIVER, proposal.core.digest())[1]
    found[Kind.BLOCK] = own.block(RECEIVER, proposal.core, proposal.cert)[1]
    assert set(found) == set(KIND_NAMES)
    return run.config, [found[kind] for kind in sorted(found)]


def line(config, receiver, asked, data):
    return "%d %d %d %s %s" % (config.f, config.clients, receiver, asked, data.hex())


def all_spoilt():
    """In version 1, and then in version 2. Any byte is changed of those without a certificate in both, and of those
    with one in version 2 alone, since it takes long."""
    config, spoilt = one_of_each_kind()
    for version in (1, 2):
        for asked in ("cuts", "every-change"):
            for data in spoilt:
                if version == 2 or asked == "cuts" or not hasattr(read(config, data), "cert"):
                    yield line(config, RECEIVER, asked, respelled(data, version))


def certified(config, receiver):
    """Certificates of a quorum and of one more, where some have tags that don't verify for the receiver: in
    announcements, and among few replicas in blocks and proposals too."""
    core = Core(GENESIS, 1, 0)
    above = Core(core.digest(), 2, 1, (command_of(config, 0, 1, GET_A),))
    for count in (config.quorum, config.quorum + 1):
        good = certificate_of(config, core.digest(), range(config.n - count, config.n))
        for spoilt in ((), (config.n - 1,), (config.n - 1, config.n - 2)):
            cert = good
            for voter in spoilt:
                cert = spoilt_for(cert, voter, [receiver])
            yield new_view_of(config, 2, 1, cert)
            if config.f == 1:
                yield block_of(config, 2, receiver, above, cert)
                yield proposal_of(config, 0, above, cert)


def of_both_versions():
    """The frames of one set and a view change; certificates; and more replicas than version 1 is for."""
    config, found = one_of_each_kind()
    for data in found:
        for version in (1, 2):
            yield line(config, RECEIVER, "check", respelled(data, version))
    for f, receivers in ((1, (1, 3)), (4, (0,)), (5, (15,))):
        config = Config(f, 2)
        for receiver in receivers:
            for data in certified(config, receiver):
                for version in (1, 2):
                    yield line(config, receiver, "check", respelled(data, version))
    config = Config(10, 2)
    cert = certificate_of(config, Core(GENESIS, 1, 0).digest(), range(21))
    for version in (1, 2):
        yield line(config, 30, "check", respelled(new_view_of(config, 2, 1, cert), version))
    votes = [OwnFrames(Keyring(config, voter)).vote(30, cert.digest)[1].hex() for voter in range(31)]
    yield "10 2 30 votes " + " ".join(votes[9:] + votes[:9])
    mixed = [OwnFrames(Keyring(Config(1, 2), voter)).vote(0, cert.digest)[1] for voter in range(4)]
    yield "1 2 0 votes " + " ".join(respelled(data, 1 + at % 2).hex() for at, data in enumerate(mixed + mixed))
