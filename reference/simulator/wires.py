"""What goes between processes: frames on a wire, the handshake of two ends, and what waits for one peer.

A frame goes as four bytes of its length and its bytes; a length of 0 is a ping. So does a letter that carries one. A
length more than 16 above that of the longest frame of the sizes ends the connection.

Of two parties the one with the higher number dials. The acceptor greets with some words and a nonce. The dialler says
who it is, whom it asks, the digest of its sizes, its life and its nonce, with a tag under the key of the two. The
acceptor answers with its life and a tag. Tags speak of a label, both parties (the sender first), the acceptor's nonce,
the dialler's, the digest, the dialler's life, and in an answer the acceptor's.
"""
import hmac
from dataclasses import dataclass
from hashlib import sha256

from . import frames
from .frames import Kind
from .tags import big_endian

# ---- frames on a wire

PIECE = 65536
MOST_BEFORE = 16


def on_wire(frame):
    return big_endian(len(frame), 4) + frame


def longest_of_kind(config, kind, most_votes):
    """A frame of this kind with the longest fields, and with so many votes."""
    vector = bytes(frames.TAG * config.n)
    command = frames.Command(0, 1, bytes(frames.MOST_PAYLOAD), vector)
    core = frames.Core(bytes(32), 1, 0, (command,) * frames.MOST_COMMANDS)
    votes = tuple(frames.Vote(voter, vector) for voter in range(most_votes))
    cert, tag = frames.Certificate(bytes(32), votes), bytes(frames.TAG)
    return {
        Kind.REQUEST: frames.RequestFrame(command),
        Kind.PROPOSAL: frames.ProposalFrame(0, core, cert, vector),
        Kind.VOTE: frames.VoteFrame(bytes(32), frames.Vote(0, vector)),
        Kind.NEW_VIEW: frames.NewViewFrame(0, 0, cert, vector),
        Kind.REPLY: frames.ReplyFrame(0, 0, 1, 1, bytes(frames.MOST_TEXT), tag),
        Kind.FETCH: frames.FetchFrame(0, bytes(32), tag),
        Kind.BLOCK: frames.BlockFrame(0, core, cert, tag),
    }[kind]


def spelled_longest(config):
    """The spellings of the longest frame of each kind, in each version that is read."""
    for kind in Kind:
        yield frames.write(longest_of_kind(config, kind, config.quorum))
        if config.f <= frames.MOST_FAULTS_OF_VERSION_ONE:
            yield frames.write_old(longest_of_kind(config, kind, config.n))


def longest_frame(config):
    """The longest of them; each is read as a frame."""
    spelled = list(spelled_longest(config))
    for data in spelled:
        frames.read(config, data)
    return max(len(data) for data in spelled)


def longest_item(config):
    """The longest frame, and what a letter may put before it."""
    return longest_frame(config) + MOST_BEFORE


def items(longest, stream):
    """The frames that stand in a stream, and whether a length ends it that no item has."""
    given, at = [], 0
    while at + 4 <= len(stream):
        size = int.from_bytes(stream[at:at + 4], "big")
        if size > longest:
            return given, True
        if at + 4 + size > len(stream):
            break
        given.append(stream[at + 4:at + 4 + size])
        at += 4 + size
    return given, False


# ---- handshakes

WORDS = b"mcbft link 1\n"
ASK, ANSWER = 8, 9


class NotNamed(Exception):
    """Why a handshake names nobody."""


@dataclass(frozen=True)
class Endpoint:
    faults: int
    clients: int
    kept: int
    party: int
    life: bytes
    keys: tuple

    def sizes_digest(self):
        return sha256(bytes([self.faults, self.clients]) + big_endian(self.kept, 4)).digest()

    def key_with(self, dialler, acceptor):
        """The key of the two, where the dialler has the higher number."""
        if dialler > acceptor:
            for one, other, key in self.keys:
                if (one, other) == (acceptor, dialler):
                    return key
        raise NotNamed("no such party may dial")


def tag(key, label, sender, receiver, *said):
    text = bytes([label]) + big_endian(sender, 2) + big_endian(receiver, 2) + b"".join(said)
    return hmac.new(key, text, sha256).digest()


def greeting(nonce):
    return WORDS + nonce


@dataclass(frozen=True)
class Dialling:
    """A handshake that was begun."""
    dialler: int
    acceptor: int
    key: bytes
    greeted: bytes
    nonce: bytes
    sizes: bytes
    life: bytes

    def said(self):
        return (self.greeted, self.nonce, self.sizes, self.life)

    def ask(self):
        head = big_endian(self.dialler, 2) + big_endian(self.acceptor, 2) + self.sizes + self.life + self.nonce
        return head + tag(self.key, ASK, self.dialler, self.acceptor, *self.said())

    def answer(self, life):
        return life + tag(self.key, ANSWER, self.acceptor, self.dialler, *self.said(), life)

    def hear(self, answer):
        """Who answers: party, life, nonce."""
        life = answer[:16]
        if answer != self.answer(life):
            raise NotNamed("bad tag")
        return self.acceptor, life, self.greeted


def dial(endpoint, acceptor, nonce, words):
    if not words.startswith(WORDS):
        raise NotNamed("not a greeting")
    key = endpoint.key_with(endpoint.party, acceptor)
    return Dialling(endpoint.party, acceptor, key, words[len(WORDS):], nonce, endpoint.sizes_digest(),
                    endpoint.life)


def admit(endpoint, greeted, ask):
    """Who asks (party, life, nonce), and the answer."""
    dialler, acceptor = int.from_bytes(ask[:2], "big"), int.from_bytes(ask[2:4], "big")
    sizes, life, nonce = ask[4:36], ask[36:52], ask[52:68]
    if acceptor != endpoint.party:
        raise NotNamed("for another party")
    key = endpoint.key_with(dialler, acceptor)
    told = Dialling(dialler, acceptor, key, greeted, nonce, sizes, life)
    if ask != told.ask():
        raise NotNamed("bad tag")
    if sizes != endpoint.sizes_digest():
        raise NotNamed("other sizes")
    return (dialler, life, nonce), told.answer(endpoint.life)


# ---- what waits for one peer

FRAME_COST = 128


class Outbox:
    """Frames in order, for a bounded cost; what doesn't fit is lost and counted."""

    def __init__(self, most):
        self.most, self.waiting, self.lost, self.is_open = most, [], 0, True

    def put(self, frame):
        cost = sum(len(other) + FRAME_COST for other in [*self.waiting, frame])
        if self.is_open and cost <= self.most:
            self.waiting.append(frame)
            return "kept"
        self.lost += 1
        return "full" if self.is_open else "closed"

    def take(self, most):
        """As many of the oldest as have so many bytes, and one at least."""
        count = max((count for count in range(1, len(self.waiting) + 1)
                     if count == 1 or sum(map(len, self.waiting[:count])) <= most), default=0)
        batch, self.waiting = self.waiting[:count], self.waiting[count:]
        return batch

    def close(self):
        self.lost += len(self.waiting)
        self.waiting, self.is_open = [], False

    def reopen(self):
        self.is_open = True
