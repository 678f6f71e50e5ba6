#!/usr/bin/env python3
"""Writes a million mixed request lines to standard output, the same on every machine."""
import random
import sys

COUNT = int(sys.argv[1]) if len(sys.argv) > 1 else 1_000_000
random.seed(20261122)
KEYS = [b"key%d" % i for i in range(10_000)]
NUMBERS = [b"number%d" % i for i in range(100)]
out = sys.stdout.buffer


def data():
    return bytes(random.choices(b"abcdefghijklmnopqrstuvwxyz0123456789 ", k=random.randint(10, 100)))


def stored(name, key, value, unique=b""):
    return b"%s %s %d 0 %d%s\r\n%s\r\n" % (name, key, random.randint(0, 9), len(value), unique, value)


for number in NUMBERS:
    out.write(stored(b"set", number, b"0"))
for _ in range(COUNT - len(NUMBERS)):
    kind = random.random()
    key = random.choice(KEYS)
    if kind < 0.45:
        out.write(b"get " + b" ".join(random.choices(KEYS, k=random.randint(1, 3))) + b"\r\n")
    elif kind < 0.75:
        out.write(stored(b"set", key, data()))
    elif kind < 0.80:
        out.write(stored(b"add", key, data()))
    elif kind < 0.83:
        out.write(stored(b"replace", key, data()))
    elif kind < 0.86:
        out.write(b"gets %s\r\n" % key)
    elif kind < 0.89:
        out.write(stored(b"cas", key, data(), b" %d" % random.randint(1, 100_000)))
    elif kind < 0.95:
        name = random.choice([b"incr", b"decr"])
        out.write(b"%s %s %d\r\n" % (name, random.choice(NUMBERS), random.randint(0, 1000)))
    elif kind < 0.98:
        out.write(b"delete %s\r\n" % key)
    else:
        out.write(b"get " + key + b" missing\r\n")
