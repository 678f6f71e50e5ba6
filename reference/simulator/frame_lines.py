"""The cases of frames in crates/format_cases: what a frame is, told in words, and whether it is written as it was
read. The heads of crates/format_cases/src/frames.rt and of frames/show.rt have the format."""
from hashlib import sha256

from . import frames
from .frames import KIND_NAMES, Kind
from .sizes import Config, Fault, Refusal

MOST_TOLD = 64


def bytes_of(field):
    """Hexadecimal, or parts with `+` between them, of which a part `HH*COUNT` is one byte so many times."""
    data = b""
    for part in field.split("+"):
        digits, _, count = part.partition("*")
        data += bytes.fromhex(digits) * int(count or 1)
    return data


def told(value):
    """The words of a field: a number or bytes."""
    if isinstance(value, int):
        return [str(value)]
    if not value:
        return ["-"]
    if len(value) <= MOST_TOLD:
        return [value.hex()]
    return ["%d:%s" % (len(value), sha256(value).hexdigest()[:32])]


def listed(elements):
    """The words of a list, of the fields of each element."""
    return ["["] + [word for fields in elements for field in fields for word in told(field)] + ["]"]


def core_words(core):
    commands = [(command.client, command.seq, command.payload, command.vector) for command in core.commands]
    head = [word for field in (core.parent, core.height, core.justify) for word in told(field)]
    return head + listed(commands) + told(core.digest())


def certificate_words(cert):
    return told(cert.digest) + listed([(vote.voter, vote.vector) for vote in cert.votes])


def words(frame):
    """The fields of a frame in the order in which they are spelled."""
    if frame.kind == Kind.REQUEST:
        command = frame.command
        fields = [command.client, command.seq, command.payload, command.vector]
    elif frame.kind == Kind.VOTE:
        fields = [frame.digest, frame.vote.voter, frame.vote.vector]
    elif frame.kind == Kind.REPLY:
        fields = [frame.replica, frame.client, frame.seq, frame.place, frame.text, frame.tag]
    elif frame.kind == Kind.FETCH:
        fields = [frame.sender, frame.digest, frame.tag]
    elif frame.kind == Kind.PROPOSAL:
        return told(frame.view) + core_words(frame.core) + certificate_words(frame.cert) + told(frame.vector)
    elif frame.kind == Kind.NEW_VIEW:
        return told(frame.view) + told(frame.sender) + certificate_words(frame.cert) + told(frame.vector)
    else:
        return told(frame.sender) + core_words(frame.core) + certificate_words(frame.cert) + told(frame.tag)
    return [word for field in fields for word in told(field)]


def whole(config, data):
    """A frame of either version is written in version 2."""
    try:
        frame = frames.read(config, data)
    except Refusal as refusal:
        return str(int(refusal.fault))
    assert frames.write(frame) == frames.respelled(data, 2)
    return " ".join([KIND_NAMES[frame.kind]] + words(frame) + ["again"])


def row(config, variants):
    digest, refused, again = sha256(), 0, 0
    for data in variants:
        line = whole(config, data)
        digest.update(line.encode() + b"\n")
        if line == str(int(Fault.NOT_A_FRAME)):
            refused += 1
        else:
            again += 1
    return "%d refused, %d again, 0 DIFFERENT, %s" % (refused, again, digest.hexdigest()[:32])


def changed(data, mask):
    for place in range(len(data)):
        yield data[:place] + bytes([data[place] ^ mask]) + data[place + 1:]


def tell(line):
    faults, clients, asked, field, *mask = line.split(" ")
    try:
        config = Config(int(faults), int(clients))
    except Refusal as refusal:
        return str(int(refusal.fault))
    data = bytes_of(field)
    if asked == "version":
        return str(frames.version_of(data) or "none")
    if asked == "whole":
        return whole(config, data)
    if asked == "cuts":
        return row(config, (data[:size] for size in range(len(data))))
    return row(config, changed(data, int(mask[0], 16)))
