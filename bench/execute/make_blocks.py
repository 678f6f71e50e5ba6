#!/usr/bin/env python3
"""Makes blocks of 16 commands of 64 clients of the request lines on standard input, each a Block frame of one fault
behind its length in four bytes. One command in fifty is one that came before."""
import random
import sys

random.seed(20261123)
lines = sys.stdin.buffer
out = sys.stdout.buffer
last = [0] * 64
commands = []
height = 0


def requests():
    while line := lines.readline():
        fields = line.split()
        if fields[0] in (b"set", b"add", b"replace", b"cas"):
            line += lines.read(int(fields[4]) + 2)
        yield line


def put_block():
    global height
    height += 1
    core = bytes(32) + height.to_bytes(8, "big") + (height - 1).to_bytes(8, "big")
    core += bytes([len(commands)]) + b"".join(commands)
    frame = b"\x82\7" + bytes(2) + core + bytes(33) + bytes(32)
    out.write(len(frame).to_bytes(4, "big") + frame)
    commands.clear()


for payload in requests():
    client = random.randrange(64)
    if last[client] == 0 or random.random() >= 0.02:
        last[client] += 1
    number = client.to_bytes(2, "big") + last[client].to_bytes(8, "big")
    commands.append(number + len(payload).to_bytes(2, "big") + payload + bytes(128))
    if len(commands) == 16:
        put_block()
if commands:
    put_block()
