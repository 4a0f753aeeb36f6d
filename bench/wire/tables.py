#!/usr/bin/env python3
"""tables.py tables FOLDER: what begins and steps take, from callgrind's files FOLDER/NAME.WIRE.few and .many, NAME being
ours, clang, g++, clang-DHELD or g++-DHELD (a twin whose caller holds the node). A begin is a call of a function whose name begins with `one_begin`, and a step one of `one_step` or of the
wire's own `step`, from a function that is named after the call of the wire. FOLDER/WIRE.counts has of how many exchanges they are.
tables.py counts ROUNDS: of how many exchanges they are to be, from ROUNDS to four times as many, so that between them no
list doubles its room. Standard input has the last lines of runs of 64 and of 128: the second and the third word count the
replies and the events.
Where a step of ours takes more instructions than MOST allows, the tables are written all the same, and it fails."""
import collections
import math
import re
import sys

WIRES = ["each limit is 1, one server", "a service's first limits, two servers"]
# The most instructions that a step of ours may take, of an exchange's steps on average, on each of these wires. On 1
# December 2026 it took 149.6 and 154.3. Lower them with what makes a step faster; who raises them says why.
MOST = [152, 157]
CALLS = {
    "copies_request": "copy of a request",
    "receives_request": "receive of it",
    "reads_request": "read of it",
    "copies_response": "copy of a response",
    "releases_active": "release of the active request",
    "receives_response": "receive of the response",
    "reads_response": "read of it",
    "releases_response": "release of it",
    "releases_pending": "release of the pending response",
}


def costs(path):
    """By caller and callee, by the last part of their names, calls and instructions with all that they call; and by
    function, instructions without what it calls."""
    names, pairs, alone = {}, collections.defaultdict(lambda: [0, 0]), collections.Counter()

    def name(word):
        key, _, text = word.partition(" ")
        if text:
            names[key] = re.sub(r"\(.*$", "", text).split("'")[0]
        return names[key]

    caller = callee = None
    calls = 0
    with open(path) as lines:
        for line in lines:
            line = line.rstrip("\n")
            if line.startswith("fn="):
                caller = name(line[3:])
            elif line.startswith("cfn="):
                callee = name(line[4:])
            elif line.startswith("calls="):
                calls = int(line[6:].split()[0])
            elif re.match(r"[+*-]?\d* ?\d+ ?\d*$", line) and caller:
                words = line.split()
                if calls:
                    pair = pairs[caller.split("::")[-1], callee.split("::")[-1]]
                    pair[0] += calls
                    pair[1] += int(words[-1])
                    calls = 0
                elif len(words) == 2:
                    alone[caller] += int(words[1])
    return pairs, alone


def exchange(folder, name, wire):
    """By call: begins, their instructions, steps, theirs; of one exchange. And by function."""
    with open(f"{folder}/{wire}.counts") as told:
        first, last = map(int, told.read().split())
    rounds = last - first
    (few, one), (many, two) = (costs(f"{folder}/{name}.{wire}.{at}") for at in ("few", "many"))
    found = {}
    for call in CALLS:
        sums = [0.0] * 4
        for pair in many:
            if pair[0] == call and (pair[1] == "step" or pair[1].startswith("one_")):
                at = 2 if pair[1] in ("one_step", "step") else 0
                for k in (0, 1):
                    sums[at + k] += (many[pair][k] - few[pair][k]) / rounds
        found[call] = sums
    return found, {it: (two[it] - one[it]) / rounds for it in two}


def total(calls):
    return [sum(it[k] for it in calls.values()) for k in range(4)]


def counts(rounds):
    few, many = ([int(it) for it in sys.stdin.readline().split()[1:3]] for _ in range(2))
    rates = [(b - a) / 64 for a, b in zip(few, many) if b > a]
    doublings = {2**k / rate for rate in rates for k in range(60)}
    points = [rounds, *sorted(it for it in doublings if rounds < it < 4 * rounds), 4 * rounds]
    _, at = max((points[at + 1] / points[at], at) for at in range(len(points) - 1))
    print(math.ceil(points[at]) + 2, math.floor(points[at + 1]) - 2)


def main(folder):
    names = ("ours", "clang", "g++", "clang-DHELD", "g++-DHELD")
    told = {(name, wire): exchange(folder, name, wire) for name in names for wire in (0, 1)}
    print("| Wire | what | instructions | C++ by clang | by g++ | ratio to the better |")
    print("|---|---|--:|--:|--:|--:|")
    for wire, label in enumerate(WIRES):
        sums = {name: total(told[name, wire][0]) for name in names}
        begins, _, steps, _ = sums["ours"]
        each = {
            f"a step, of {steps:.0f} in an exchange": lambda s: s[3] / s[2],
            f"a begin, of {begins:.0f}": lambda s: s[1] / s[0],
            "an exchange": lambda s: s[1] + s[3],
        }
        for what, of in each.items():
            ours, clang, gcc = (of(sums[name]) for name in ("ours", "clang", "g++"))
            digits = 1 if ours < 1000 else 0
            print(f"| {label} | {what} | {ours:,.{digits}f} | {clang:,.{digits}f} | {gcc:,.{digits}f} "
                  f"| {ours / min(clang, gcc):.2f} |")
            label = ""
        clang, gcc = (sums[f"{name}-DHELD"][3] / steps for name in ("clang", "g++"))
        print(f"|  | a step of the twin, by a caller that holds its node | | {clang:,.1f} | {gcc:,.1f} | |")
    print()
    for wire, label in enumerate(WIRES):
        print(f"Where {label}:\n")
        print("| Call | begin | C++ | steps | instructions each | C++ |")
        print("|---|--:|--:|--:|--:|--:|")
        for call, named in CALLS.items():
            begins, begun, steps, stepped = told["ours", wire][0][call]
            better = min(("clang", "g++"), key=lambda name: sum(total(told[name, wire][0])[1::2]))
            twin = told[better, wire][0][call]
            print(f"| {named} | {begun / begins:,.0f} | {twin[1] / begins:,.0f} | {steps / begins:g} "
                  f"| {stepped / steps:.0f} | {twin[3] / steps:.0f} |")
        print()
    print("| Function, without those that it calls | instructions an exchange, where each limit is 1 |")
    print("|---|--:|")
    for function, cost in sorted(told["ours", 0][1].items(), key=lambda it: -it[1]):
        if cost >= 60:
            print(f"| `{function}` | {cost:,.0f} |")
    check(told)


def check(told):
    """Fails where a step of ours takes more than it may."""
    for wire, (label, most) in enumerate(zip(WIRES, MOST)):
        _, _, steps, stepped = total(told["ours", wire][0])
        if stepped > most * steps:
            sys.exit(f"bench/wire: a step takes {stepped / steps:.1f} instructions where {label}: more than {most}")


if sys.argv[1] == "counts":
    counts(int(sys.argv[2]))
else:
    main(sys.argv[2])
