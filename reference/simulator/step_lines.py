"""The cases of steps in crates/replica_cases: replicas that are stepped, by shares or alone."""
from hashlib import sha256

from . import checks
from .own_frames import ALL
from .replica import Replica
from .signing import request_of
from .sizes import MOST_KEYS, Config, Fault, Refusal, party_name
from .stated_runs import GET_A
from .tags import Keyring

NOT_ALL = 45


def sent(to, data):
    return " %d to %s %s" % (len(data), "all" if to == ALL else party_name(to), sha256(data).hexdigest()[:16])


def step(replica, brought, is_own=True):
    """What one input is answered. A frame that was checked for another replica is refused before a share that isn't
    the replica's own."""
    frame = None
    if brought not in ("beat", "timeout"):
        checker, digits = brought.split(":")
        frame = checks.admit(Keyring(replica.config, int(checker)), bytes.fromhex(digits))
        if int(checker) != replica.me:
            raise Refusal(Fault.NOT_MINE)
    if not is_own:
        return None
    if frame:
        return replica.receive(frame)
    return replica.beat() if brought == "beat" else replica.timeout()


def answer(replica, brought, is_own=True):
    try:
        out = step(replica, brought, is_own)
    except Refusal as refusal:
        return str(int(refusal.fault))
    return str(NOT_ALL) if out is None else "ok" + "".join(sent(*sending) for sending in out)


def executed(history):
    """How many commands, and a digest of their lines; nothing where there is none."""
    lines = "".join("c%d %d %s\n" % (client, seq, payload.hex()) for client, seq, payload in history)
    return ", executed %d %s" % (len(history), sha256(lines.encode()).hexdigest()[:16]) if history else ""


def by_shares(replica, count, inputs):
    """The share behind the last one is a strange one."""
    counts, told = [0] * (count + 1), ""
    for item in inputs:
        share, brought = item.split(":", 1)
        before = len(replica.chronicle)
        told += answer(replica, brought, int(share) < count) + ", "
        counts[int(share)] += len(replica.chronicle) - before
    told += "[" + "".join(" %d" % made for made in counts) + " ] refused, refused, closed "
    return told + "%d%s" % (len(replica.chronicle), executed(replica.history))


def ask(replica, count):
    """How many of client 0's requests, 1 to this number, are answered without a refusal."""
    frames = (request_of(replica.config, 0, number, GET_A) for number in range(1, count + 1))
    answers = [answer(replica, "%d:%s" % (replica.me, frame.hex())) for frame in frames]
    return "%d ok" % sum(told.startswith("ok") for told in answers)


def alone(replica, inputs):
    told = ""
    for brought in inputs:
        head, _, count = brought.partition(":")
        told += (ask(replica, int(count)) if head == "requests" else answer(replica, brought)) + ", "
    return told + "made %d, executed %d" % (len(replica.chronicle), replica.executor.length)


def tell_alone(faults, clients, number, most_keys, inputs):
    try:
        config = Config(faults, clients, most_keys=most_keys)
    except Refusal as refusal:
        return "refused %d" % refusal.fault
    return alone(Replica(config, number), inputs)


def tell(line):
    faults, clients, number, shares, *inputs = line.split(" ")
    if shares.startswith("alone"):
        most_keys = int(shares[len("alone="):] or MOST_KEYS)
        return tell_alone(int(faults), int(clients), int(number), most_keys, inputs)
    return by_shares(Replica(Config(int(faults), int(clients)), int(number)), int(shares), inputs)
