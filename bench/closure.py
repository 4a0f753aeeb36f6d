#!/usr/bin/env python3
"""closure.py CRATES NAME..: of CRATES, a crates.txt, the lines of these crates and of all below them."""
import sys

below = {}
with open(sys.argv[1]) as crates:
    for line in crates:
        name, found, needs = line.split("#")[0].partition(":")
        if found:
            below[name.strip()] = needs.split()

seen = []


def reach(name):
    # crates of the toolchain have no line
    if name in below and name not in seen:
        seen.append(name)
        for other in below[name]:
            reach(other)


for name in sys.argv[2:]:
    reach(name)
for name in seen:
    print(f"{name}: {' '.join(below[name])}")
