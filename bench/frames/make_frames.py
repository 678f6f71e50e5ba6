#!/usr/bin/env python3
"""Writes proposals to standard output, the same on every machine, each behind its length in four bytes.

There are four replicas and 16 clients. Each proposal has 16 commands and a certificate of three votes, and all tags
are right: the key of two parties is SHA-256 of the word hsim and their two numbers, the lower one first, and the tags
are by the standard library's HMAC.
"""
import hashlib
import hmac
import random
import struct
import sys

COUNT = int(sys.argv[1]) if len(sys.argv) > 1 else 200
REPLICAS = 4
CLIENTS = 16
COMMANDS = 16
REQUEST, PROPOSAL, VOTE = 1, 2, 3
VERSION_TWO = 130
random.seed(20261122)
TEXT = b"abcdefghijklmnopqrstuvwxyz0123456789 "


def client_party(client):
    return 256 + client


def vector(label, sender, content):
    """The sender's tag for each replica."""
    tags = b""
    for replica in range(REPLICAS):
        key = hashlib.sha256(b"hsim" + struct.pack(">HH", *sorted((sender, replica)))).digest()
        tags += hmac.digest(key, struct.pack(">BHH", label, sender, replica) + content, "sha256")
    return tags


def payload():
    data = bytes(random.choices(TEXT, k=random.randint(10, 70)))
    return b"set key%d %d 0 %d\r\n%s\r\n" % (random.randrange(10_000), random.randint(0, 9), len(data), data)


def command():
    client, asked = random.randrange(CLIENTS), payload()
    content = struct.pack(">HQH", client, random.randint(1, 1_000_000), len(asked)) + asked
    return content + vector(REQUEST, client_party(client), content)


def core(parent, height):
    commands = b"".join(command() for _ in range(COMMANDS))
    return parent + struct.pack(">QQB", height, height - 1, COMMANDS) + commands


def certificate(digest):
    voters = sorted(random.sample(range(REPLICAS), 3))
    votes = b"".join(struct.pack(">H", voter) + vector(VOTE, voter, digest) for voter in voters)
    return digest + bytes([len(voters)]) + votes


parent = random.randbytes(32)
for turn in range(COUNT):
    view = random.randint(1, 1_000_000)
    block = core(parent, turn + 2)
    content = struct.pack(">Q", view) + block + certificate(parent)
    frame = bytes([VERSION_TWO, PROPOSAL]) + content + vector(PROPOSAL, view % REPLICAS, content)
    sys.stdout.buffer.write(struct.pack(">I", len(frame)) + frame)
    parent = hashlib.sha256(block).digest()
