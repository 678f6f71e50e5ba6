#!/usr/bin/env python3
"""A replica or a front that says whatever frames can say, in place of `mcbft`, with the same words on its command line.

    tests/false_party.py replica --id N --deployment FILE --keys FILE --state DIR --seed S [--moods NAME,..]
    tests/false_party.py front --id N --deployment FILE --keys FILE --state DIR --port P --seed S

It does the handshakes, and hears what is sent to it; frames, tags and letters are those of reference/simulator. What it says is
drawn from the seed and from what it heard: it has some moods for a few seconds, then others, which are told on standard
output with the machine's time.
"""
import argparse
import os
import random
import socket
import sys
import threading
import time
from collections import defaultdict, deque
from dataclasses import replace

TOP = os.path.dirname(os.path.dirname(os.path.abspath(__file__)))
sys.path.insert(0, os.path.join(TOP, "reference"))
from simulator import frames, letters, wires  # noqa: E402
from simulator.frames import Certificate, Command, Core, Kind, Vote  # noqa: E402
from simulator.signing import halved  # noqa: E402
from simulator.sizes import FIRST_CLIENT, TOP as HIGHEST, Config, Refusal  # noqa: E402
from simulator.tags import Keyring  # noqa: E402

MOOD = (0.5, 4)         # seconds that a mood lasts
MOST_MOODS = 3          # at a time
TICK = 0.01             # seconds between two things that are said
HEARD = 300             # frames of each kind that are kept
FLOOD = 400             # frames of one thing said in a flood


def read_lines(path):
    with open(path, encoding="ascii") as file:
        return [line.split() for line in file]


def read_exactly(stream, count):
    got = b""
    while len(got) < count:
        piece = stream.recv(count - len(got))
        if not piece:
            raise ConnectionError("the other end is gone")
        got += piece
    return got


class Links:
    """The connections of one party to all others; what comes is handed on."""

    def __init__(self, endpoint, addresses, hear):
        self.endpoint, self.addresses, self.hear = endpoint, addresses, hear
        self.streams, self.lock = {}, threading.Lock()

    def start(self):
        for party, address in self.addresses.items():
            if party < self.endpoint.party:
                threading.Thread(target=self.keep_dialling, args=(party, address), daemon=True).start()

    def listen(self, address):
        listener = socket.create_server(address)
        threading.Thread(target=self.keep_door, args=(listener,), daemon=True).start()

    def keep_dialling(self, party, address):
        while True:
            try:
                stream = socket.create_connection(address, timeout=10)
                dialling = wires.dial(self.endpoint, party, os.urandom(16), read_exactly(stream, 29))
                stream.sendall(dialling.ask())
                dialling.hear(read_exactly(stream, 48))
                self.keep_reading(party, stream)
            except (OSError, wires.NotNamed):
                time.sleep(0.2)

    def keep_door(self, listener):
        while True:
            stream = listener.accept()[0]
            threading.Thread(target=self.admit, args=(stream,), daemon=True).start()

    def admit(self, stream):
        try:
            stream.settimeout(10)
            nonce = os.urandom(16)
            stream.sendall(wires.greeting(nonce))
            peer, answer = wires.admit(self.endpoint, nonce, read_exactly(stream, 100))
            stream.sendall(answer)
            self.keep_reading(peer[0], stream)
        except (OSError, wires.NotNamed):
            stream.close()

    def keep_reading(self, party, stream):
        stream.settimeout(None)
        with self.lock:
            self.streams[party] = stream
        while True:
            size = int.from_bytes(read_exactly(stream, 4), "big")
            if size:
                self.hear(party, read_exactly(stream, size))

    def say_raw(self, party, data):
        """Sends bytes as they are, if there is a connection; what can't go out within a second is lost with it."""
        stream = self.streams.get(party)
        try:
            if stream:
                stream.settimeout(1)
                stream.sendall(data)
                stream.settimeout(None)
        except OSError:
            self.hang_up(party)

    def hang_up(self, party):
        stream = self.streams.pop(party, None)
        if stream:
            try:
                stream.shutdown(socket.SHUT_RDWR)
            except OSError:
                pass
            stream.close()

    def say(self, party, text):
        self.say_raw(party, wires.on_wire(text))


class Mind:
    """What a party heard, and what it can draw from that."""

    def __init__(self, config, keyrings, draw):
        self.config, self.keyrings, self.draw = config, keyrings, draw
        self.heard = defaultdict(lambda: deque(maxlen=HEARD))       # kind, or mark of a letter -> texts
        self.view, self.heights = 0, {}

    def hear(self, _party, text):
        kind = frames.kind_of(text) if frames.version_of(text) else text[0]
        self.heard[kind].append(text)

    def frame(self, kind, newest=False):
        """One of this kind that was heard; None where there is none."""
        texts = self.heard[kind]
        if not texts:
            return None
        try:
            frame = frames.read(self.config, texts[-1] if newest else self.draw.choice(list(texts)))
        except Refusal:
            return None
        if kind in (Kind.PROPOSAL, Kind.NEW_VIEW):
            self.view = max(self.view, frame.view) if frame.view < 2 ** 32 else self.view
        if kind in (Kind.PROPOSAL, Kind.BLOCK):
            self.heights[frame.core.digest()] = frame.core.height
        return frame

    def digest(self):
        proposal = self.frame(Kind.PROPOSAL, self.draw.random() < 0.7)
        return self.draw.randbytes(32) if proposal is None or self.draw.random() < 0.2 else proposal.core.digest()

    def some_view(self):
        self.frame(Kind.PROPOSAL, True)
        self.frame(Kind.NEW_VIEW, True)
        return self.draw.choice([self.view, self.view, self.view + 1, self.view + 1, self.view + self.draw.randrange(40),
                                 max(0, self.view - 3), self.view + 10 ** 6, HIGHEST])

    def some(self):
        """Replicas for which something is right."""
        return [replica for replica in range(self.config.n) if self.draw.random() < 0.6]

    def spoil(self, vector):
        return self.draw.choice([vector, halved(vector, self.some()), self.draw.randbytes(len(vector))])

    def certificate(self):
        """One that was heard, perhaps spoilt, or one of votes that were heard."""
        frame = self.frame(self.draw.choice([Kind.PROPOSAL, Kind.NEW_VIEW, Kind.BLOCK]), self.draw.random() < 0.6)
        cert = frame.cert if frame else Certificate(frames.GENESIS)
        cert = self.own_certificate() or cert if self.draw.random() < 0.5 else cert
        if cert.votes and self.draw.random() < 0.4:
            votes = list(cert.votes)
            at = self.draw.randrange(len(votes))
            votes[at] = replace(votes[at], vector=self.spoil(votes[at].vector))
            cert = replace(cert, votes=tuple(votes))
        return cert

    def own_certificate(self):
        """Of the newest votes for one block; None where there aren't enough."""
        votes = {}
        for text in list(self.heard[Kind.VOTE])[-40:]:
            frame = frames.read(self.config, text)
            votes.setdefault(frame.digest, {})[frame.vote.voter] = frame.vote
        for digest, those in reversed(votes.items()):
            if len(those) >= self.config.quorum:
                return Certificate(digest, tuple(those[voter] for voter in sorted(those)[:self.config.quorum]))
        return None

    def commands(self):
        found = [self.frame(Kind.REQUEST) for _ in range(self.draw.randrange(4))]
        commands = [frame.command for frame in found if frame]
        if commands and self.draw.random() < 0.3:
            commands[0] = replace(commands[0], vector=self.spoil(commands[0].vector))
        return tuple(commands)

    def core(self, cert):
        """A block on that of a certificate, mostly of the right height."""
        height = self.heights.get(cert.digest, 0)
        step = self.draw.choice([1, 1, 1, 1, 2, 70, 5000])
        justify = self.draw.choice([height, height, height, max(0, height - 1), height + step - 1])
        return Core(cert.digest, height + step, justify, self.commands())


def mangled(draw, text):
    at = draw.randrange(len(text))
    return draw.choice([text[:at], text + draw.randbytes(9), text[:at] + draw.randbytes(1) + text[at + 1:]])


class FalseReplica:
    def __init__(self, mind, number, links):
        self.mind, self.draw, self.links, self.number = mind, mind.draw, links, number
        self.keyring = mind.keyrings[0]
        self.moods = [self.half_votes, self.votes, self.old_frames, self.mangle, self.new_views, self.propose, self.blocks,
                      self.fetches, self.fetches_on, self.passed, self.letters, self.asks_on, self.replies, self.raw, self.silence]

    def others(self):
        return [replica for replica in range(self.mind.config.n) if replica != self.number]

    def tell(self, text):
        """Says it to all, or to some."""
        for replica in self.others():
            if self.draw.random() < 0.8:
                self.links.say(replica, text)

    def vector(self, kind, content):
        return self.mind.spoil(self.keyring.vector(kind, content))

    # ---- moods

    def vote(self, digest):
        self.tell(frames.write(frames.VoteFrame(digest, Vote(self.number, self.vector(Kind.VOTE, digest)))))

    def half_votes(self):
        proposal = self.mind.frame(Kind.PROPOSAL, True)
        if proposal:
            self.vote(proposal.core.digest())

    def votes(self):
        self.vote(self.mind.digest())

    def any_text(self):
        kinds = [kind for kind, texts in self.mind.heard.items() if texts]
        return self.draw.choice(list(self.mind.heard[self.draw.choice(kinds)])) if kinds else b"\x82"

    def old_frames(self):
        for _ in range(self.draw.choice([1, 1, 20])):
            self.tell(self.any_text())

    def mangle(self):
        self.tell(mangled(self.draw, self.any_text()))

    def new_views(self):
        frame = frames.NewViewFrame(self.mind.some_view(), self.number, self.mind.certificate())
        self.tell(self.spell(replace(frame, vector=self.vector(Kind.NEW_VIEW, frame.content()))))

    def spell(self, frame):
        return frames.write(frame) if self.draw.random() < 0.9 else frames.write_old(frame)

    def own_view(self):
        """The view that it leads, not below the present one; or any."""
        self.mind.frame(Kind.PROPOSAL, True)
        self.mind.frame(Kind.NEW_VIEW, True)
        view, n = self.mind.view, self.mind.config.n
        return self.mind.some_view() if self.draw.random() < 0.2 else view + (self.number - view) % n

    def propose(self):
        """One block, or two of one height."""
        view, cert = self.own_view(), self.mind.certificate()
        for _ in range(self.draw.choice([1, 1, 2])):
            frame = frames.ProposalFrame(view, self.mind.core(cert), cert)
            self.mind.heights[frame.core.digest()] = frame.core.height
            frame = replace(frame, vector=self.vector(Kind.PROPOSAL, frame.content()))
            self.tell(self.spell(frame))
            self.mind.hear(self.number, frames.write(frame))

    def blocks(self):
        source = self.mind.frame(Kind.PROPOSAL)
        if source:
            cert = self.draw.choice([source.cert, self.mind.certificate()])
            frame = frames.BlockFrame(self.number, source.core, cert)
            for to in self.others():
                tag = self.keyring.tag(Kind.BLOCK, to, frame.content())
                self.links.say(to, self.spell(replace(frame, tag=tag)))

    def fetches(self):
        for _ in range(self.draw.choice([1, 10])):
            frame = frames.FetchFrame(self.number, self.mind.digest())
            to = self.draw.choice(self.others())
            self.links.say(to, frames.write(replace(frame, tag=self.keyring.tag(Kind.FETCH, to, frame.content()))))

    def fetches_on(self):
        """Asks for one of the largest blocks, faster than they can send it."""
        texts = self.mind.heard[Kind.PROPOSAL]
        if texts:
            digest = frames.read(self.mind.config, max(texts, key=len)).core.digest()
            for to in self.others():
                frame = frames.FetchFrame(self.number, digest)
                frame = replace(frame, tag=self.keyring.tag(Kind.FETCH, to, frame.content()))
                self.links.say_raw(to, 200 * wires.on_wire(frames.write(frame)))

    def passed(self):
        request = self.mind.frame(Kind.REQUEST)
        if request:
            command = replace(request.command, vector=self.mind.spoil(request.command.vector))
            self.tell(letters.write("passed", [frames.write(frames.RequestFrame(command))]))

    def number_near(self):
        height = max(self.mind.heights.values(), default=0)
        return self.draw.choice([0, height, max(0, height - 100), height + 1, height + 10 ** 6, HIGHEST])

    def letters(self):
        say = {"doubted": lambda: [self.draw.randrange(2 ** self.mind.config.n)],
               "asked": lambda: [self.number_near(), self.draw.choice([0, 10 ** 4, HIGHEST])],
               "recorded": lambda: [self.number_near(), self.any_text()],
               "announced": lambda: [self.number_near(), self.any_text()],
               "answered": lambda: [self.number_near(), self.number_near(), self.draw.random() < 0.5],
               "told": lambda: [self.number_near() for _ in range(3)] + [self.mind.some_view()]
               + [self.draw.random() < 0.5 for _ in range(2)]}
        name = self.draw.choice(list(say))
        for _ in range(self.draw.choice([1, 1, 30])):
            self.tell(letters.write(name, say[name]()))

    def asks_on(self):
        """Asks for all that others recorded, faster than they can send it."""
        for _ in range(20):
            self.tell(letters.write("asked", [1, HIGHEST]))

    def replies(self):
        """Wrong answers to what clients asked."""
        request = self.mind.frame(Kind.REQUEST, self.draw.random() < 0.8)
        if request:
            command = request.command
            text = self.draw.choice([b"STORED\r\n", b"END\r\n", b"NOT_FOUND\r\n", b"ERROR\r\n"])
            frame = frames.ReplyFrame(self.number, command.client, command.seq, self.draw.randrange(1, 10 ** 4), text)
            tag = self.keyring.tag(Kind.REPLY, FIRST_CLIENT + command.client, frame.content())
            for party in [party for party in self.links.streams if party >= FIRST_CLIENT]:
                self.links.say(party, frames.write(replace(frame, tag=tag)))

    def raw(self):
        """What is no frame, and now and then what ends a connection."""
        to = self.draw.choice(self.others())
        self.draw.choice([lambda: self.links.say(to, b""), lambda: self.links.say(to, self.draw.randbytes(50)),
                          lambda: self.links.say(to, bytes([self.draw.randrange(192, 256)]) + self.draw.randbytes(20)),
                          lambda: self.links.hang_up(to) if self.draw.random() < 0.05 else None,
                          lambda: self.links.say_raw(to, b"\xff" * 8) if self.draw.random() < 0.02 else None])()

    def silence(self):
        pass


class FalseFront:
    def __init__(self, mind, clients, links):
        self.mind, self.draw, self.links, self.clients = mind, mind.draw, links, clients
        self.seqs = {client: 1 for client in clients}
        self.moods = [self.ask, self.ask, self.spoilt, self.twice, self.ahead, self.others_names, self.other_kinds, self.floods,
                      self.raw]

    def tell(self, text):
        for replica in range(self.mind.config.n):
            self.links.say(replica, text)

    def payload(self):
        key = b"liar-%d" % self.draw.randrange(20)
        data = self.draw.randbytes(self.draw.choice([1, 30, 4000])).hex().encode()[:4096]
        return self.draw.choice([b"set %b 0 0 %d\r\n%b\r\n" % (key, len(data), data), b"get %b\r\n" % key, b"",
                                 b"incr %b 1\r\n" % key, b"no request", b"get " + b" ".join([key] * 16) + b"\r\n",
                                 self.draw.randbytes(4608)])

    def request(self, client, seq, receivers=None):
        command = Command(client, seq, self.payload())
        at = client if client in self.clients else self.clients[0]
        vector = self.mind.keyrings[at].vector(Kind.REQUEST, command.content())
        vector = vector if receivers is None else halved(vector, receivers)
        return frames.write(frames.RequestFrame(replace(command, vector=vector)))

    def next_one(self):
        client = self.draw.choice(self.clients)
        self.seqs[client] += 1
        return client, self.seqs[client]

    # ---- moods

    def ask(self):
        self.tell(self.request(*self.next_one()))

    def spoilt(self):
        self.tell(self.request(*self.next_one(), self.mind.some()))

    def twice(self):
        """One number, with another request for each replica."""
        client, seq = self.next_one()
        for replica in range(self.mind.config.n):
            self.links.say(replica, self.request(client, self.draw.choice([seq, seq, max(1, seq - 1)])))

    def ahead(self):
        client = self.draw.choice(self.clients)
        self.tell(self.request(client, self.draw.choice([self.seqs[client] + 100, 2 ** 40, HIGHEST])))

    def others_names(self):
        self.tell(self.request(self.draw.randrange(self.mind.config.clients), self.draw.randrange(1, 10 ** 5)))

    def other_kinds(self):
        kinds = [kind for kind, texts in self.mind.heard.items() if texts]
        if kinds:
            self.tell(mangled(self.draw, self.draw.choice(list(self.mind.heard[self.draw.choice(kinds)]))))

    def floods(self):
        texts = [self.request(*self.next_one(), self.draw.choice([None, self.mind.some()])) for _ in range(8)]
        for _ in range(FLOOD // 8):
            for text in texts:
                self.tell(text)

    def raw(self):
        self.tell(self.draw.choice([b"", self.draw.randbytes(40)]))


def act(party, draw, names):
    """Some moods at a time, then others, until it's ended; only moods of these names, if there are some."""
    moods = [mood for mood in party.moods if mood.__name__ in (names or mood.__name__)]
    while True:
        chosen = draw.sample(moods, min(len(moods), draw.randrange(1, MOST_MOODS + 1)))
        until, floods = time.monotonic() + draw.uniform(*MOOD), draw.random() < 0.15
        told = " and ".join(mood.__name__ for mood in chosen)
        print(f"{time.monotonic():.2f} {told}{', as fast as it can' if floods else ''}", flush=True)
        while time.monotonic() < until:
            draw.choice(chosen)()
            time.sleep(0 if floods else TICK)


def read_options():
    parser = argparse.ArgumentParser(prog="tests/false_party.py", description=__doc__, allow_abbrev=False,
                                     formatter_class=argparse.RawDescriptionHelpFormatter)
    parser.add_argument("role", choices=["replica", "front"])
    parser.add_argument("--id", type=int, required=True)
    for name in ("--deployment", "--keys", "--state"):
        parser.add_argument(name, required=True)
    parser.add_argument("--port", type=int, default=0)
    parser.add_argument("--watch", type=int, default=0)
    parser.add_argument("--seed", default="0")
    parser.add_argument("--moods", default="", metavar="NAME,..")
    return parser.parse_args()


class Told:
    """What a party's files tell it."""

    def __init__(self, options):
        lines = read_lines(options.deployment)
        sizes = {words[0]: int(words[1]) for words in lines if words[0] in ("faults", "clients", "keys-held")}
        self.sizes = sizes["faults"], sizes["clients"], sizes["keys-held"]
        self.addresses = {int(words[1]): address(words[2]) for words in lines if words[0] == "replica"}
        counts = [int(words[2]) for words in lines if words[0] == "front"]
        first = sum(counts[:options.id])
        self.clients = list(range(first, first + counts[options.id])) if options.role == "front" else []
        self.party = FIRST_CLIENT + first if self.clients else options.id
        keys = [words for words in read_lines(options.keys) if len(words) == 3]
        self.pairs = {(int(one), int(other)): bytes.fromhex(key) for one, other, key in keys}

    def config(self):
        faults, clients, held = self.sizes
        return Config(faults, clients, lambda one, other: self.pairs[min(one, other), max(one, other)], held)

    def endpoint(self):
        return wires.Endpoint(*self.sizes, self.party, os.urandom(16), tuple((*pair, key) for pair, key in self.pairs.items()))

    def keyrings(self, config):
        """Of each client of a front; of a replica its own, as the first."""
        parties = {client: FIRST_CLIENT + client for client in self.clients} or {0: self.party}
        return {at: Keyring(config, party) for at, party in parties.items()}


def address(text):
    host, port = text.split(":")
    return host, int(port)


def main():
    options = read_options()
    told, draw = Told(options), random.Random(options.seed)
    config = told.config()
    mind = Mind(config, told.keyrings(config), draw)
    links = Links(told.endpoint(), told.addresses, mind.hear)
    if not told.clients:
        links.listen(told.addresses[options.id])
    links.start()
    print("listening on nothing:0", flush=True)
    party = FalseFront(mind, told.clients, links) if told.clients else FalseReplica(mind, options.id, links)
    act(party, draw, [name for name in options.moods.split(",") if name])


if __name__ == "__main__":
    main()
