"""What `replica_cases` has to print of a case of checks: what checks say of frames, and of frames that were cut
or changed; votes that are collected; tags and HMACs. The head of crates/replica_cases/src/check.rt has the
format."""
import hashlib
import hmac

from . import checks, frames
from .frames import TAG, Certificate, Kind, kind_of
from .sizes import Config, Fault, Refusal
from .tags import Keyring, sha256

NO_FRAME, BAD_TAG, NOT_MINE = str(int(Fault.NOT_A_FRAME)), str(int(Fault.BAD_TAG)), str(int(Fault.NOT_MINE))
COUNTED = {"ok": "ok", NO_FRAME: "of 10", BAD_TAG: "of 11", NOT_MINE: "of 30"}


class Row:
    """How often each first word was said, and a digest of all that was said."""

    def __init__(self):
        self.told = hashlib.sha256()
        self.counts = dict.fromkeys(list(COUNTED) + ["others"], 0)

    def add(self, line):
        self.told.update(line.encode() + b"\n")
        word = line.split(" ")[0]
        self.counts[word if word in COUNTED else "others"] += 1

    def text(self):
        counts = ["%d %s" % (count, COUNTED.get(word, word)) for word, count in self.counts.items()]
        return "%s, %s" % (", ".join(counts), self.told.hexdigest()[:32])


def in_brackets(voters):
    return " [" + "".join(" %d" % voter for voter in voters) + " ]"


def checked(keyring, data):
    """What the check of bytes says, and of a certificate in them alone, with what of it is passed on."""
    try:
        frame = frames.read(keyring.config, data)
    except Refusal as refusal:
        return str(int(refusal.fault))
    if frame.kind == Kind.REPLY:
        return NOT_MINE
    whole = said(lambda: passed(frame, checks.check(keyring, frame), keyring))
    if not hasattr(frame, "cert"):
        return whole
    return whole + " alone " + said(lambda: alone(keyring, frame.cert))


def alone(keyring, cert):
    voters = in_brackets(checks.check_certificate(keyring, cert))
    return voters + in_brackets(vote.voter for vote in checks.cut(keyring, cert).votes)


def said(check):
    try:
        return "ok" + check()
    except Refusal as refusal:
        return str(int(refusal.fault))


def passed(frame, found, keyring):
    if not hasattr(frame, "cert"):
        return ""
    voters = in_brackets(checks.check_certificate(keyring, frame.cert))
    if not hasattr(frame, "core"):
        return voters
    return voters + (" clear" if found.clear else " unclear")


def admitted(keyring, data):
    """`ok` where the bytes are admitted, and else the number of the refusal."""
    try:
        checks.admit(keyring, data)
    except Refusal as refusal:
        return str(int(refusal.fault))
    return "ok"


def row_of(answer, keyring, variants):
    row = Row()
    for data in variants:
        row.add(answer(keyring, data))
    return row.text()


def changed(data, place, mask):
    return data[:place] + bytes([data[place] ^ mask]) + data[place + 1:]


def cuts(keyring, data):
    return row_of(admitted, keyring, (data[:size] for size in range(len(data))))


def foreign_places(keyring, data):
    """Where the frame's own last vector has tags for other receivers."""
    config = keyring.config
    if kind_of(data) not in (Kind.REQUEST, Kind.PROPOSAL, Kind.VOTE, Kind.NEW_VIEW):
        return range(0)
    first, own = len(data) - TAG * config.n, len(data) - TAG * (config.n - keyring.party)
    return set(range(first, len(data))) - set(range(own, own + TAG))


def every_change(keyring, data):
    """Each change of one byte is refused with 10, 11 or 30, but for those of others' tags in the own vector,
    which change nothing. That is checked here beside what the readers and checks say."""
    whole, foreign, row = admitted(keyring, data), foreign_places(keyring, data), Row()
    for place in range(len(data)):
        for mask in range(1, 256):
            answer = admitted(keyring, changed(data, place, mask))
            assert answer == whole if place in foreign else answer in (NO_FRAME, BAD_TAG, NOT_MINE)
            row.add(answer)
    return row.text()


class Poll:
    """Votes that are collected, and the blocks that have a certificate."""

    def __init__(self, keyring):
        self.keyring = keyring
        self.votes = {}
        self.certified = set()

    def add(self, data):
        frame = frames.read(self.keyring.config, data)
        if frame.kind != Kind.VOTE:
            raise Refusal(Fault.NOT_A_FRAME)
        checks.check(self.keyring, frame)
        if frame.digest in self.certified:
            return "Past"
        votes = self.votes.setdefault(frame.digest, {})
        if frame.vote.voter in votes:
            return "Doubled"
        votes[frame.vote.voter] = frame.vote
        if len(votes) < self.keyring.config.quorum:
            return "First"
        self.certified.add(frame.digest)
        raw = Certificate(frame.digest, tuple(votes[voter] for voter in sorted(votes))).raw()
        return "Complete %d:%s" % (len(raw), sha256(raw)[:8].hex())

    def tell(self, data):
        try:
            return self.add(data)
        except Refusal as refusal:
            return str(int(refusal.fault))


def votes(keyring, rest):
    poll = Poll(keyring)
    return ", ".join(poll.tell(bytes.fromhex(field)) for field in rest.split(" "))


def vector(keyring, rest):
    label, content = rest.split(" ")
    return keyring.vector(int(label), bytes.fromhex(content)).hex()


def changes(keyring, rest):
    mask, digits = rest.split(" ")
    data = bytes.fromhex(digits)
    return row_of(checked, keyring, (changed(data, place, int(mask, 16)) for place in range(len(data))))


ASKED = {
    "check": lambda keyring, rest: checked(keyring, bytes.fromhex(rest)),
    "changes": changes,
    "cuts": lambda keyring, rest: cuts(keyring, bytes.fromhex(rest)),
    "every-change": lambda keyring, rest: every_change(keyring, bytes.fromhex(rest)),
    "votes": votes,
    "vector": vector,
}


def wanted(line):
    if line.startswith("hmac "):
        _, key, text = line.split(" ")
        return hmac.digest(bytes.fromhex(key), bytes.fromhex(text), "sha256").hex()
    faults, clients, party, asked, rest = line.split(" ", 4)
    try:
        config = Config(int(faults), int(clients))
    except Refusal as refusal:
        return str(int(refusal.fault))
    return ASKED[asked](Keyring(config, int(party)), rest)
