#!/usr/bin/env python3
"""mix.py PROGRAM: what each kind of line costs iox_run, in instructions, behind 20 nodes, 8 clients and a server. A
kind costs what some more lines of it add to a script's count by callgrind, a line each."""
import re
import statistics
import subprocess
import sys

PROGRAM = sys.argv[1]


def play(lines):
    """The answers to a script, and its count."""
    given = "".join(line + "\n" for line in lines).encode()
    words = ["valgrind", "--tool=callgrind", "--callgrind-out-file=/dev/null", PROGRAM]
    ran = subprocess.run(words, input=given, stdout=subprocess.PIPE, stderr=subprocess.PIPE, check=True)
    return ran.stdout.decode().splitlines(), int(re.search(r"Collected : (\d+)", ran.stderr.decode())[1])


# Node 0 to 7 have client 0 to 7, and node 8 has server 8. What comes is numbered from 9 on: 32 pending responses, as
# many active requests, and as many responses.
sets = ["set request-overflow 1", "set response-overflow 1"]
opens = [f"open {node} 0 0 0" for node in range(2, 21)]
clients = [f"client {node} 1" for node in range(8)]
exchange = {
    "sends of a request": [f"send-copy {i % 8} {i % 8} {100 + i}" for i in range(32)],
    "receives of a request": ["receive 8 8"] * 32,
    "reads of a request": [f"read 8 {41 + i}" for i in range(32)],
    "sends of a response": [f"send-copy 8 {41 + i} {500 + i}" for i in range(32)],
    "receives of a response": [f"receive {i % 8} {9 + i}" for i in range(32)],
    "reads of a response": [f"read {i % 8} {73 + i}" for i in range(32)],
}
kinds = {
    "`set`": sets,
    "`create`": ["create 61 1 0 0 0"],
    "`open`": opens,
    "`client`": clients,
    "`server`": ["server 8 1"],
    **exchange,
    "receives of nothing": ["receive 8 8", "receive 0 9"] * 16,
}
before, costs = [], {}
_, count = play(before)
for kind, lines in kinds.items():
    answers, more = play(before + lines)
    if any(answer.startswith(("refused", "bad")) for answer in answers):
        sys.exit(f"bench/mix.py: a line is refused among {kind}")
    costs[kind] = (more - count) / len(lines)
    before, count = before + lines, more
print("| Lines | instructions a line |\n|---|--:|")
for kind, cost in costs.items():
    print(f"| {kind} | {cost:,.0f} |")
mean = sum(costs[kind] for kind in exchange) / len(exchange)
print(f"\nOver the six lines of an exchange the mean is {mean:,.0f}; over all kinds the median is {statistics.median(costs.values()):,.0f}.")
