#!/usr/bin/env python3
"""Writes a chain of blocks with their votes to standard output, the same on every machine.

make_chain.py HEIGHTS [COMMANDS]: for each height a Proposal frame of view 0 and then three Vote frames for its block,
each behind its length in four bytes. There are four replicas and 16 clients; replica 0 leads the view. A block has 16
commands, or as many as are given, of 1,000 that were made beforehand, and stands on the one before with the certificate of its three votes; the first stands
on genesis, whose certificate has none. All tags are right: the key of two parties is SHA-256 of the word hsim and their
two numbers, the lower one first, and the tags are by the standard library's HMAC.
"""
import hashlib
import hmac
import random
import struct
import sys

HEIGHTS = int(sys.argv[1])
REPLICAS = 4
CLIENTS = 16
COMMANDS = int(sys.argv[2]) if len(sys.argv) > 2 else 16
LEADER = 0
REQUEST, PROPOSAL, VOTE = 1, 2, 3
VERSION_TWO = 130
random.seed(20261123)
TEXT = b"abcdefghijklmnopqrstuvwxyz0123456789 "


def client_party(client):
    return 256 + client


def key(one, other):
    return hashlib.sha256(b"hsim" + struct.pack(">HH", *sorted((one, other)))).digest()


PARTIES = list(range(REPLICAS)) + [client_party(client) for client in range(CLIENTS)]
KEYS = {(party, replica): key(party, replica) for party in PARTIES for replica in range(REPLICAS)}


def vector(label, sender, content):
    """The sender's tag for each replica."""
    return b"".join(
        hmac.digest(KEYS[sender, replica], struct.pack(">BHH", label, sender, replica) + content, "sha256")
        for replica in range(REPLICAS)
    )


def payload():
    data = bytes(random.choices(TEXT, k=random.randint(10, 70)))
    return b"set key%d %d 0 %d\r\n%s\r\n" % (random.randrange(10_000), random.randint(0, 9), len(data), data)


def command():
    client, asked = random.randrange(CLIENTS), payload()
    content = struct.pack(">HQH", client, random.randint(1, 1_000_000), len(asked)) + asked
    return content + vector(REQUEST, client_party(client), content)


def write(frame):
    sys.stdout.buffer.write(struct.pack(">I", len(frame)) + frame)


commands = [command() for _ in range(1000)]
parent = hashlib.sha256(bytes(49)).digest()
certificate = parent + bytes([0])
for height in range(1, HEIGHTS + 1):
    core = parent + struct.pack(">QQB", height, height - 1, COMMANDS) + b"".join(random.sample(commands, COMMANDS))
    content = struct.pack(">Q", 0) + core + certificate
    write(bytes([VERSION_TWO, PROPOSAL]) + content + vector(PROPOSAL, LEADER, content))
    parent = hashlib.sha256(core).digest()
    voters = random.sample(range(REPLICAS), 3)
    votes = {voter: struct.pack(">H", voter) + vector(VOTE, voter, parent) for voter in voters}
    for voter in voters:
        write(bytes([VERSION_TWO, VOTE]) + parent + votes[voter])
    certificate = parent + bytes([len(voters)]) + b"".join(votes[voter] for voter in sorted(voters))
