"""Cases of frames in `format_cases` that show the two versions: each kind at few and many replicas, certificates of
each number of votes, first bytes, and the edges of numbers. Tags and digests are one byte many times."""
from .frames import VERSION_TWO, Kind
from .sizes import MOST_FAULTS

SIZES = (1, 4, 5, 7, MOST_FAULTS)
PARENT, CERTIFIED = "05*32", "07*32"
TAG = "09*32"
PAYLOAD = b"get a"
FIRST_BYTES = ("00", "01", "07", "08", "81", "82", "83", "ff", "8200", "8201", "8207", "8208", "8281", "8282", "828206")


def head(version, kind):
    return "%02x" % kind if version == 1 else "%02x%02x" % (VERSION_TWO, kind)


def number(value, size):
    return value.to_bytes(size, "big").hex()


def replicas(f):
    return 3 * f + 1


def vector(f, byte):
    return "%02x*%d" % (byte, 32 * replicas(f))


def certificate(f, voters):
    votes = [number(voter, 2) + "+" + vector(f, 64 + voter) for voter in voters]
    return "+".join([CERTIFIED, number(len(voters), 1)] + votes)


def command(f, client):
    return number(client, 2) + number(3, 8) + number(len(PAYLOAD), 2) + PAYLOAD.hex() + "+" + vector(f, 32)


def core(f, clients):
    fields = PARENT + "+" + number(2, 8) + number(1, 8) + number(len(clients), 1)
    return "+".join([fields] + [command(f, client) for client in clients])


def proposal(f, version, voters, clients=()):
    return "+".join([head(version, Kind.PROPOSAL) + number(3, 8), core(f, clients), certificate(f, voters),
                     vector(f, 16)])


def new_view(f, version, voters, sender=1):
    return "+".join([head(version, Kind.NEW_VIEW) + number(3, 8) + number(sender, 2), certificate(f, voters),
                     vector(f, 16)])


def block(f, version, voters, clients=()):
    return "+".join([head(version, Kind.BLOCK) + number(3, 2), core(f, clients), certificate(f, voters), TAG])


def request(f, version, client=1):
    return "+".join([head(version, Kind.REQUEST) + command(f, client)])


def vote(f, version, voter=2):
    return "+".join([head(version, Kind.VOTE), CERTIFIED, number(voter, 2), vector(f, 16)])


def reply(version, replica=2, client=1):
    text = b"OK\r\n"
    fields = number(replica, 2) + number(client, 2) + number(3, 8) + number(4, 8) + number(len(text), 4)
    return "+".join([head(version, Kind.REPLY) + fields + text.hex(), TAG])


def fetch(version, sender=2):
    return "+".join([head(version, Kind.FETCH) + number(sender, 2), CERTIFIED, TAG])


def certified(f, version):
    """Certificates of no votes, of one too few, just enough, one more, and all; the last voters, and one twice."""
    quorum, n = 2 * f + 1, replicas(f)
    groups = [range(count) for count in (0, 1, quorum - 1, quorum, quorum + 1, n)]
    groups += [range(n - quorum, n), range(n - quorum + 1, n + 1), [0] + list(range(quorum - 1))]
    for voters in groups:
        yield new_view(f, version, voters)
        yield block(f, version, voters)
        yield proposal(f, version, voters)
    yield block(f, version, range(quorum), (1,))
    yield proposal(f, version, range(quorum), (0, 1))


def others(f, version):
    """The other kinds, with parties that are there and some that aren't."""
    n = replicas(f)
    for client in (0, 1, 2):
        yield request(f, version, client)
        yield reply(version, n - 1, client)
    for party in (0, n - 1, n):
        yield vote(f, version, party)
        yield fetch(version, party)
        yield reply(version, party)
        yield new_view(f, version, (), party)


def whole_frames(f):
    for version in (1, 2):
        yield from certified(f, version)
        yield from others(f, version)


def first_bytes(f):
    """Before the fields of a question; and alone, with a frame behind it, or doubled."""
    fields = "%s+%s+%s" % (number(2, 2), CERTIFIED, TAG)
    for first in FIRST_BYTES:
        yield first + "06" + fields
        yield first + fields
        yield first
    yield fetch(2) + "+00"
    yield head(2, Kind.FETCH) + fetch(1)
    yield fetch(1) + "+" + fetch(2)


def spoilt(f):
    """One frame of each kind in version 2."""
    quorum = range(2 * f + 1)
    return [request(f, 2), proposal(f, 2, quorum, (0, 1)), vote(f, 2), new_view(f, 2, quorum), reply(2), fetch(2),
            block(f, 2, quorum, (0, 1))]


def all_cases():
    for f in (11, 12, 255):
        yield "%d 2 whole %s" % (f, fetch(2))
    for f in SIZES:
        for data in whole_frames(f):
            yield "%d 2 whole %s" % (f, data)
    for f in (1, 5):
        for data in first_bytes(f):
            yield "%d 2 whole %s" % (f, data)
        for data in spoilt(f):
            yield "%d 2 cuts %s" % (f, data)
            for mask in ("01", "02", "03", "80", "82") if f == 1 else ("01", "82"):
                yield "%d 2 changes %s %s" % (f, data, mask)
    for first in range(256):
        if first < 12 or first > 125 and first < 135 or first > 250:
            yield "1 2 version %02x" % first
    for data in ["", fetch(1), fetch(2), "0906", "8209"]:
        yield "10 2 version " + data
    for client in (63, 64):
        yield "10 64 whole %s" % request(10, 2, client)
