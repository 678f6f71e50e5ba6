#!/usr/bin/env python3
"""Passes on the lines that the programs print, and prints frames a second, microseconds a frame, and the proved times
by the plain ones, of the medians.

A line is: proved|plain COUNT frames of LENGTH bytes, TIME us, sum SUM. It fails where the sums are not all equal.
"""
import re
import statistics
import sys

LINE = re.compile(r"(proved|plain) (\d+) frames of (\d+) bytes, (\d+) us, sum (\d+)")
times, sums = {}, {}
for line in sys.stdin:
    print(line, end="", flush=True)
    name, count, length, time, total = LINE.fullmatch(line.strip()).groups()
    times.setdefault((length, name), []).append(int(time) / int(count))
    sums.setdefault(length, set()).add((count, total))
if any(len(found) != 1 for found in sums.values()):
    sys.exit("the programs found different things")
for length in sums:
    proved, plain = (statistics.median(times[length, name]) for name in ("proved", "plain"))
    fastest = min(times[length, "proved"]) / min(times[length, "plain"])
    print(f"{length} bytes: {1e6 / proved:,.0f} frames a second, {proved:.2f} us a frame; plain {1e6 / plain:,.0f}, "
          f"{plain:.2f} us; proved by plain {proved / plain:.2f}, of the fastest turns {fastest:.2f}")
