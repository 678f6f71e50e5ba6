#!/usr/bin/env python3
"""Passes the lines of several turns on, and then prints the time of read_request by that of the feed, for each size of
the pieces: of the medians, and of the fastest turns. Fails where two ways found different requests."""
import re
import statistics
import sys

times = {}
found = set()
for line in sys.stdin:
    sys.stdout.write(line)
    way, count, total, time = re.fullmatch(r"(\w+(?: of \d+:)?) (\d+) requests, sum (\d+), (\d+) ms\n", line).groups()
    times.setdefault(way, []).append(int(time))
    found.add((count, total))
if len(found) != 1:
    sys.exit("the ways found different requests")
for way in times:
    median = statistics.median(times["whole"]) / statistics.median(times[way])
    fastest = min(times["whole"]) / min(times[way])
    print(f"{way} medians {median:.2f}, fastest {fastest:.2f}")
