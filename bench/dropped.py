#!/usr/bin/env python3
"""dropped.py PROGRAM: which functions that the sources mark `inline(always)` stand in a proved program all the same.

The toolchain drops that hint, with no message, from a function that would grow very large, and bench/unproved.py drops none. So
where this lists a function of a usual way, a proved build takes more than one without proofs counts. Each line has
the function's size in bytes. A function of a trait, or one that is only named as a value, may stand there for other reasons."""
import pathlib
import re
import subprocess
import sys

CRATES = pathlib.Path(__file__).resolve().parent.parent / "crates"
HEAD = re.compile(r"((?:^[ \t]*#\[[^\n]*\]\n)+)[ \t]*(?:pub(?:\([a-z]+\))? )?fn (\w+)", re.M)


def marked():
    """By crate and name, the functions that are always to be inlined."""
    found = set()
    for file in CRATES.glob("*/src/**/*.rt"):
        for attributes, name in HEAD.findall(file.read_text()):
            if "#[inline(always)]" in attributes:
                found.add((file.relative_to(CRATES).parts[0], name))
    return found


def main(program):
    names, told = marked(), subprocess.run(["nm", "-S", "--size-sort", program], capture_output=True, text=True, check=True).stdout
    for line in told.splitlines():
        _, size, _, symbol = line.split(" ", 3)
        parts = re.sub(r"::<.*$", "", symbol).split("::")
        if (parts[0], parts[-1]) in names:
            print(f"{int(size, 16):6} {'::'.join(parts)}")


main(*sys.argv[1:])
