#!/usr/bin/env python3
"""Passes on the lines that the programs print, and prints the plain times by the proved one, of the medians.

The plain program stands twice: plain makes the hashers of a key anew for each tag, and kept keeps them, as the proved
one does. A line is: proved|plain|kept COUNT proposals, read TIME us, checked TIME us, sums SUM SUM. It fails where the
counts or the sums are not all equal.
"""
import re
import statistics
import sys

LINE = re.compile(r"(proved|plain|kept) (\d+ proposals), read (\d+) us, checked (\d+) us, (sums \d+ \d+)")
times = {"proved": ([], []), "plain": ([], []), "kept": ([], [])}
found = set()
for line in sys.stdin:
    print(line, end="", flush=True)
    name, count, read, checked, sums = LINE.fullmatch(line.strip()).groups()
    times[name][0].append(int(read))
    times[name][1].append(int(checked))
    found.add((count, sums))
if len(found) != 1:
    sys.exit("the programs found different things")
for part, work in enumerate(("reading", "reading and checking")):
    proved = times["proved"][part]
    for name in ("plain", "kept"):
        plain = times[name][part]
        medians = statistics.median(plain) / statistics.median(proved)
        print(f"{work}, {name} by proved: {medians:.2f}, of the fastest turns {min(plain) / min(proved):.2f}")
