#!/usr/bin/env python3
"""below.py CRATES CRATE..: the lines of the file CRATES for these crates and for all that they rest on."""
import sys

lines = [line for line in open(sys.argv[1]) if ":" in line and not line.startswith("#")]
libraries = {line.split(":")[0]: line.split(":")[1].split() for line in lines}
wanted, left = set(), sys.argv[2:]
while left:
    crate = left.pop()
    if crate in libraries and crate not in wanted:
        wanted.add(crate)
        left += libraries[crate]
print("".join(line for line in lines if line.split(":")[0] in wanted), end="")
