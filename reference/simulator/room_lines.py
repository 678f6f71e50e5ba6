"""Cases of caches with a stated room: `room KEYS TEXT`, where TEXT is a dialogue of canonical requests in
hexadecimal."""
import hashlib
import random

from . import requests
from .cache import Cache
from .requests import Request
from .sizes import Refusal

X = b"x"
KINDS = ("set", "set", "set", "add", "add", "replace", "append", "prepend", "cas", "cas", "get", "get", "get",
         "gets", "gets", "incr", "decr", "delete")


def case_of(room, dialogue):
    return "room %d %s" % (room, b"".join(request.canonical() for request in dialogue).hex())


# ---- what is printed of a case

def payloads_in(text):
    """The texts of the requests, one behind the other."""
    start = 0
    while start < len(text):
        end = text.index(b"\r\n", start) + 2
        fields = text[start:end - 2].split(b" ")
        if fields[0].decode() in requests.STORAGE:
            end += int(fields[4]) + 2
        yield text[start:end]
        start = end


def tell(case):
    """The line that is printed of a case."""
    _, room, digits = case.split(" ")
    try:
        cache = Cache(int(room))
    except Refusal as refused:
        return "fault %d" % refused.fault
    payloads = list(payloads_in(bytes.fromhex(digits)))
    told = b"".join(cache.answer(payload) for payload in payloads)
    first = "whole %d reply" % len(payloads[0]) if payloads else "more"
    canonical = "canonical" if len(payloads) == 1 else "not canonical"
    digest = hashlib.sha256(told).hexdigest()[:16]
    return "%s, %s, %d items, %d bytes of text %s" % (first, canonical, len(payloads), len(told), digest)


# ---- cases that show one thing each

def put(name, key):
    return Request(name, (key,), data=X)


def ask(name, *keys):
    return Request(name, keys)


def all_stated():
    yield case_of(0, [])
    yield case_of(1, [put("set", b"a"), put("set", b"b"), ask("get", b"a"), put("set", b"a")])
    yield case_of(2, [])
    yield case_of(65536, [])
    yield case_of(65537, [])


# ---- cases at random

class Writer:
    """Writes a dialogue on twice as many keys as fit, and counts what happens in it."""

    def __init__(self, rng, counts):
        self.rng = rng
        self.counts = counts
        self.room = rng.choice([1, 2, 2, 3, 5, 8, 13, 50])
        self.keys = [b"key%d" % number for number in range(2 * self.room)]
        self.cache = Cache(self.room)

    def _request(self):
        name, key = self.rng.choice(KINDS), self.rng.choice(self.keys)
        if name in requests.GETS:
            return Request(name, tuple(self.rng.choices(self.keys, k=self.rng.choice([1, 1, 2, 3, 16]))))
        _, _, unique = self.cache.entries.get(key, (0, b"", 0))
        return Request(name, (key,), flags=self.rng.choice([0, 7]), data=self.rng.choice([b"", X, b"5", b"9" * 19]),
                       unique=self.rng.choice([unique, unique + 1]), value=self.rng.choice([0, 1, 2 ** 64 - 1]))

    def write(self, length):
        dialogue = []
        for _ in range(length):
            request = self._request()
            before = set(self.cache.entries)
            self.cache.apply(request)
            self.counts["requests"] += 1
            if request.name != "delete" and before - set(self.cache.entries):
                self.counts["evictions"] += 1
            dialogue.append(request)
        return case_of(self.room, dialogue)


def at_random(seed, number, counts):
    for case in range(number):
        yield Writer(random.Random("%s/%d" % (seed, case)), counts).write(100)
