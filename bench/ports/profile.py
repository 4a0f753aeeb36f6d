#!/usr/bin/env python3
"""profile.py FOLDER ROUNDS: what the calls and the functions of an exchange take, in instructions.

FOLDER has, for each of iox_exchange, plan_exchange and same_exchange, what callgrind_annotate
prints of so many rounds: NAME.yes with what a function calls, NAME.no of the function alone.
"""
import re
import sys

folder, rounds = sys.argv[1], int(sys.argv[2])

# The calls of a round, and the functions by which each is made: of the library, and of the twins.
CALLS = [
    ("loan of a request", "loan_request", "loan_request"),
    ("writes of both loans", "write_request write_response", "write"),
    ("send of the request", "send_request", "send_request"),
    ("receive of the request", "receive_request", "receive_request"),
    ("reads of both messages", "read_request read_response", "read"),
    ("loan of a response", "loan_response", "loan_response"),
    ("send of the response", "send_response", "send_response"),
    ("release of the active request", "release_active", "release_active"),
    ("receive of the response", "receive_response", "receive_response"),
    ("release of the response", "release_response", "release_response"),
    ("release of the pending response", "release_pending", "release_pending"),
    ("questions whether client and server are there", "has_client has_server", "has_port"),
    ("question whether the pending response is there", "has_pending", "has"),
]
# Those of which the table of functions tells: the library's, and divisions of 128 bits.
OURS = re.compile(r"(iox_|iceoryx2_)\w+::|__u(mod|div)ti3$")
LINE = re.compile(r"\s*([\d,]+)\s*(?:\(.*?%\))?\s+\S*?:(\S.*?)(?:\s\[.*\])?$")


def counts(name, inclusive):
    """Instructions a round of each function, by its name."""
    found = {}
    for line in open(f"{folder}/{name}.{inclusive}"):
        match = LINE.match(line)
        if match:
            # a recursion is told by its depth, and a generic function by a hash
            function = re.sub(r"'\d+$|::<#\w+>", "", match.group(2)).strip()
            count = int(match.group(1).replace(",", "")) / rounds
            found[function] = max(found.get(function, 0), count)
    return found


def of_calls(found, start, names):
    """What the calls of these names take."""
    total = 0
    for name in names.split():
        for function, count in found.items():
            if function == start + name or function.startswith(start + name + "("):
                total += count
    return total


def calls():
    columns = [
        (counts("iox_exchange", "yes"), "iox_c::calls::", 1),
        (counts("plan_exchange", "yes"), "plan::Hub::", 2),
        (counts("same_exchange", "yes"), "same::Hub::", 2),
    ]
    print("| Call | library | hub without searches | hub with the same searches |")
    print("|---|--:|--:|--:|")
    for call in CALLS:
        row = [of_calls(found, start, call[at]) for found, start, at in columns]
        print(f"| {call[0]} | " + " | ".join(f"{n:.0f}" for n in row) + " |")


def functions():
    print("| Function of the library, without those that it calls | instructions a round |")
    print("|---|--:|")
    found = counts("iox_exchange", "no")
    for function, count in sorted(found.items(), key=lambda it: -it[1]):
        if OURS.match(function) and count >= 30:
            print(f"| `{function}` | {count:.0f} |")


calls()
print()
functions()
