#!/usr/bin/env python3
"""Runs the two programs in turn on a chain, as a replica that follows and as the leader, and prints what they cost.

turns.py CHAIN SHORT PROVED PLAIN: CHAIN is the file of the long chain, SHORT that of a short one. Of the frames of 500
heights the mean and the median are taken, and of these the medians over five turns. A vote's numbers are those of the
three votes for a block, by three. Bytes a block are what the greatest resident memory of a process differs by, of the
long chain and the short one, by their blocks. It fails where the programs found different things.
"""
import collections
import os
import re
import statistics
import sys

TURNS = 5
MARKS = (1_000, 10_000, 100_000)
LINE = re.compile(r"(proposal|vote) (\d+) (\d+) (\d+)")
ROLES = {"follower": 2, "leader": 0}


def run(program, role, chain):
    """The lines that a program prints, and its greatest resident memory in bytes."""
    read_end, write_end = os.pipe()
    child = os.fork()
    if child == 0:
        os.dup2(os.open(chain, os.O_RDONLY), 0)
        os.dup2(write_end, 1)
        os.close(read_end)
        os.execv(program, [program, str(ROLES[role])])
    os.close(write_end)
    with os.fdopen(read_end) as printed:
        lines = printed.read().splitlines()
    _, status, used = os.wait4(child, 0)
    if status != 0:
        sys.exit(f"{program} failed as {role}")
    return lines, used.ru_maxrss * 1024


def times_of(lines):
    """Of each kind of frame and each mark the microseconds of the check and of the step: mean and median."""
    sums = collections.defaultdict(lambda: [0, 0, 0])
    for line in lines[:-1]:
        kind, height, check, step = LINE.fullmatch(line).groups()
        sum_of = sums[kind, int(height)]
        sum_of[0] += 1
        sum_of[1] += int(check)
        sum_of[2] += int(step)
    rows = collections.defaultdict(list)
    for (kind, height), (count, check, step) in sums.items():
        mark = min(mark for mark in MARKS if height <= mark)
        rows[kind, mark].append((check / count / 1000, step / count / 1000))
    found = {}
    for place, row in rows.items():
        checks, steps = zip(*row)
        for name, one in (("mean", statistics.mean), ("median", statistics.median)):
            found[(*place, name, "check")] = one(checks)
            found[(*place, name, "step")] = one(steps)
    return found


def bytes_a_block(program, role, long, long_size, short):
    lines, short_size = run(program, role, short)
    blocks = [int(lines[-1].split()[0]) for lines in (long, lines)]
    return (long_size - short_size) / (blocks[0] - blocks[1])


chain, short, *programs = sys.argv[1:]
names = dict(zip(("proved", "plain"), programs))
times = collections.defaultdict(list)
sizes = {}
for role in ROLES:
    last = set()
    for turn in range(TURNS):
        for name, program in names.items():
            lines, size = run(program, role, chain)
            last.add(lines[-1])
            for place, time in times_of(lines).items():
                times[(role, *place, name)].append(time)
            sizes[role, name] = (lines, size)
    print(role, *last)
    if len(last) != 1:
        sys.exit("the programs found different things")

ONES = {"median": statistics.median, "fastest": min}
for role, kind in (("follower", "proposal"), ("leader", "proposal"), ("leader", "vote")):
    marks = [mark for mark in MARKS if (role, kind, mark, "mean", "step", "plain") in times]
    for number, turns in (("mean", "median"), ("median", "median"), ("median", "fastest")):
        steps = {}
        for mark in marks:
            row = {
                (name, part): ONES[turns](times[role, kind, mark, number, part, name])
                for name in names
                for part in ("check", "step")
            }
            steps[mark] = row["proved", "step"]
            print(
                f"{role}, {kind} at {mark}, {number}s, {turns} turn: check {row['proved', 'check']:.2f} us, plain"
                f" {row['plain', 'check']:.2f}; step {row['proved', 'step']:.2f} us, plain {row['plain', 'step']:.2f},"
                f" plain by proved {row['plain', 'step'] / row['proved', 'step']:.2f}"
            )
        for mark in marks[1:]:
            print(f"    proved step at {mark} by that at {marks[0]}: {steps[mark] / steps[marks[0]]:.2f}")

for (role, name), (lines, size) in sizes.items():
    print(f"{role}, {name}: {bytes_a_block(names[name], role, lines, size, short):.0f} bytes a block")
