"""Searches one order of all requests, key by key, that explains every answer: as Wing and Gong do, with states remembered.

An order is one in which no request stands before another that was answered before it was asked, and in which the cache of
reference/simulator answers each as it was answered. A request without an answer may stand anywhere behind its call, or
nowhere. What `gets` tells as a unique is taken as a name: a value keeps its own as long as it stands, and no other one has it.
"""
import math
import os
import re
import sys
from collections import defaultdict
from dataclasses import dataclass
from functools import lru_cache

TOP = os.path.dirname(os.path.dirname(os.path.abspath(__file__)))
sys.path.insert(0, os.path.join(TOP, "reference"))
from simulator.cache import Cache  # noqa: E402
from simulator.requests import Request  # noqa: E402

MOST_STATES = 2_000_000         # that are looked at for one key
FRESH, UNNAMED = 2 ** 62, 2 ** 61       # the count of changes before a request; the unique of a value that nobody asked for
NAMED = re.compile(rb"VALUE \S+ \d+ \d+ (\d+)\r\n")


@dataclass(frozen=True)
class Record:
    """A request, when it was asked and answered, and how. Without an answer it may be done at any later time."""
    request: Request
    called: float
    returned: float = math.inf
    answer: bytes | None = None

    def key(self):
        return self.request.keys[0]

    def name(self):
        """The unique that its answer tells."""
        found = NAMED.match(self.answer) if self.answer and self.request.name == "gets" else None
        return int(found.group(1)) if found else None


@lru_cache(maxsize=100_000)
def done(state, request):
    """What a request makes of a key's state (flags, data, name), and its answer. A new value has no name yet."""
    cache, key = Cache(), request.keys[0]
    cache.changes = FRESH
    if state:
        flags, data, name = state
        cache.entries[key], cache.last_use[key] = (flags, data, UNNAMED if name is None else name), 0
    answer = cache.apply(request)
    if key not in cache.entries:
        return None, answer
    flags, data, unique = cache.entries[key]
    return (flags, data, None if unique in (UNNAMED, FRESH + 1) else unique), answer


class Search:
    """The search for the records of one key."""

    def __init__(self, records):
        answered = sorted((it for it in records if it.answer is not None), key=lambda it: it.called)
        self.answered = len(answered)
        self.records = answered + sorted((it for it in records if it.answer is None), key=lambda it: it.called)
        self.tellers = defaultdict(int)         # name -> the records that tell it, as bits
        for number, record in enumerate(answered):
            self.tellers[record.name()] |= 1 << number

    def next_ones(self, placed, low):
        """Which records may stand next: the answered ones first, in the order of their answers."""
        earliest, found, at = math.inf, [], low
        while at < self.answered and self.records[at].called <= earliest:
            if not placed >> at & 1:
                found.append(at)
                earliest = min(earliest, self.records[at].returned)
            at += 1
        found.sort(key=lambda number: self.records[number].returned)
        found += [number for number in range(self.answered, len(self.records)) if not placed >> number & 1]
        return [number for number in found if self.records[number].called <= earliest]

    def after(self, state, placed, number):
        """The state behind a record; False where its answer isn't that of this state, or where it would change nothing."""
        record = self.records[number]
        name = record.name()
        if name is not None and state and state[2] is None and not self.tellers[name] & placed:
            state = (*state[:2], name)
        new, answer = done(state, record.request)
        if record.answer is None:
            return False if new == state else new
        return new if answer == record.answer else False

    def run(self):
        """True where there is an order, False where there is none, None where the search grew too large."""
        start = (0, 0, None)
        seen, stack = {(0, None)}, [(start, iter(self.next_ones(0, 0)))]
        while stack:
            (placed, low, state), ways = stack[-1]
            if low == self.answered:
                return True
            number = next(ways, None)
            if number is None:
                stack.pop()
                continue
            new = self.after(state, placed, number)
            here = (placed | 1 << number, new)
            if new is False or here in seen:
                continue
            seen.add(here)
            if len(seen) > MOST_STATES:
                return None
            lowest = self.lowest(here[0], low)
            stack.append(((here[0], lowest, new), iter(self.next_ones(here[0], lowest))))
        return False

    def lowest(self, placed, low):
        """The first answered record that isn't placed."""
        while low < self.answered and placed >> low & 1:
            low += 1
        return low


def by_key(records):
    found = defaultdict(list)
    for record in records:
        found[record.key()].append(record)
    return found


def judge(records):
    """Each key for which there is no order, or none was found: (key, `no order` or `too large`)."""
    said = {False: "no order", None: "too large"}
    verdicts = {key: Search(those).run() for key, those in by_key(records).items()}
    return [(key, said[verdict]) for key, verdict in verdicts.items() if verdict is not True]
