#!/usr/bin/env python3
"""Passes on the lines that the two programs print, and prints ratios of the medians.

A line is: proved|plain COUNT blocks, cache TIME ms, executed TIME ms, sums SUM SUM. It fails where the counts or the
sums are not all equal.
"""
import re
import statistics
import sys

LINE = re.compile(r"(proved|plain) (\d+ blocks), cache (\d+) ms, executed (\d+) ms, (sums \d+ \d+)")
times = {"proved": ([], []), "plain": ([], [])}
found = set()
for line in sys.stdin:
    print(line, end="", flush=True)
    name, count, cache, executed, sums = LINE.fullmatch(line.strip()).groups()
    times[name][0].append(int(cache))
    times[name][1].append(int(executed))
    found.add((count, sums))
if len(found) != 1:
    sys.exit("the programs found different things")
cache, executed = (statistics.median(t) for t in times["proved"])
plain_cache, plain = (statistics.median(t) for t in times["plain"])
print(f"execution by the cache alone: {executed / cache:.2f}, in plain Rust {plain / plain_cache:.2f}")
print(f"plain by proved: the cache alone {plain_cache / cache:.2f}, execution {plain / executed:.2f}")
