"""The cases of sessions in crates/replica_cases: what a client's session says to its inputs, and a replica's replies.
The heads of crates/replica_cases/src/session.rt and of session/told.rt have the format."""
from hashlib import sha256

from .frames import respelled
from .session import Session
from .signing import reply_of
from .sizes import TOP, Config, Refusal
from .stated_runs import GET_A, SET_A


def sent(word, data):
    return "%s %d %s" % (word, len(data), sha256(data).hexdigest()[:16])


def told(session, given):
    """What a session says to one input."""
    if given == "again":
        return sent("again", session.frame) if session.outstanding else "nothing"
    try:
        if given.startswith("submit="):
            return sent("sent", session.submit(bytes.fromhex(given[len("submit="):])))
        receipt = session.receive(bytes.fromhex(given))
    except Refusal as refusal:
        return str(int(refusal.fault))
    return "receipt %d %d %s" % (receipt.seq, receipt.place, receipt.text.hex()) if receipt else "counted"


def tell(line):
    faults, clients, party, asked, rest = line.split(" ", 4)
    config = Config(int(faults), int(clients))
    if asked == "reply":
        client, seq, place, text = rest.split(" ")
        return reply_of(config, int(party), int(client), int(seq), int(place), bytes.fromhex(text)).hex()
    behind, rest = rest.split(" ", 1) if asked == "resumed" else (0, rest)
    session = Session(config, int(party), int(behind))
    return ", ".join(told(session, given) for given in rest.split(" "))


# ---- cases that show one thing each

def accepted(f, version):
    """A set and then a get are accepted from f + 1 replies each; the next ones come too late, or again."""
    config, words = Config(f, 2), []
    for seq, payload in enumerate((SET_A, GET_A), 1):
        words += ["submit=" + payload.hex(), "again"]
        replies = [reply_of(config, replica, 1, seq, seq, b"OK\r\n") for replica in range(f + 2)]
        words += [respelled(data, version).hex() for data in replies[:1] + replies]
    return "%d 2 1 session %s" % (f, " ".join(words))


def first_bytes():
    """A reply in both versions, and with other first bytes; then another's, which completes a receipt."""
    config = Config(1, 2)
    replies = [reply_of(config, replica, 1, 1, 1, b"OK\r\n") for replica in (0, 1)]
    heads = [b"", b"\x00", b"\x08", b"\x81", b"\x83", b"\x82", b"\x82\x82"]
    given = [head + replies[0][1:] for head in heads[1:]] + heads + [replies[0][1:], replies[0], replies[1][1:]]
    return "1 2 1 session " + " ".join(["submit=" + SET_A.hex()] + [data.hex() for data in given])


def went_on():
    """A client that goes on behind 41 asks with 42; replies to 41 and to 1, as it may have asked before, come first."""
    config, words = Config(1, 2), ["submit=" + SET_A.hex(), "submit=" + GET_A.hex(), "again"]
    for seq in (41, 1, 43, 42):
        words += [reply_of(config, replica, 1, seq, 7, b"OK\r\n").hex() for replica in (0, 2)]
    return "1 2 1 resumed 41 %s again submit=%s again" % (" ".join(words), GET_A.hex())


def last_numbers():
    """Behind the last number but one there is one more; behind the last there is none."""
    config, asks = Config(1, 2), "again submit=%s again" % SET_A.hex()
    replies = [reply_of(config, replica, 0, TOP, 1, b"OK\r\n").hex() for replica in (3, 1)]
    yield "1 2 0 resumed %d %s %s %s" % (TOP - 1, asks, " ".join(replies), asks)
    yield "1 2 0 resumed %d %s %s" % (TOP, asks, replies[0])


def all_stated():
    yield first_bytes()
    yield went_on()
    yield from last_numbers()
    for f in (1, 4, 5, 10):
        for version in (1, 2):
            yield accepted(f, version)
        yield "%d 64 %d reply 63 7 9 %s" % (f, 3 * f, b"STORED\r\n".hex())
