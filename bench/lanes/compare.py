#!/usr/bin/env python3
"""Prints for each case the nanoseconds a tag of the fastest turn: proved and plain, in lanes and alone. It fails where the
programs made different tags. A line is: proved|plain N tags of LEN bytes: in lanes NS ns, alone NS ns, sum SUM."""
import re
import sys

LINE = re.compile(r"(proved|plain) (\d+ tags of \d+ bytes): in lanes (\d+) ns, alone (\d+) ns, sum (\d+)")
times, sums = {}, {}
for line in sys.stdin:
    name, case, lanes, alone, total = LINE.fullmatch(line.strip()).groups()
    times.setdefault(case, {}).setdefault(name, []).append((int(lanes), int(alone)))
    sums.setdefault(case, set()).add(total)
if any(len(found) != 1 for found in sums.values()):
    sys.exit("the programs made different tags")
for case, by_name in times.items():
    fastest = {name: [min(column) for column in zip(*turns)] for name, turns in by_name.items()}
    (lanes, alone), (plain_lanes, plain_alone) = fastest["proved"], fastest["plain"]
    print(f"{case}: in lanes {lanes} ns a tag, alone {alone} ({alone / lanes:.2f} times it); "
          f"plain in lanes {plain_lanes}, alone {plain_alone}")
