#!/usr/bin/env python3
"""Holds the table of promises in docs/WRONG_BODIES.md to the edits that stand.

    tools/promises.py            lists where each edit of the table stands
    tools/promises.py --check    says what is wrong; exit 1 if anything is

Each name in the table, between two *, is an edit of a crate: its file's name with spaces for underscores. It stands in the
crate's folder must-fail/, promises/ or wrong-bodies/. Of each row, one at least stands in must-fail/ or promises/, which the
gate always tries. No crate has an edit in two of them.
"""
import pathlib
import re
import sys

TOP = pathlib.Path(__file__).resolve().parent.parent
PAGE = TOP / "docs" / "WRONG_BODIES.md"
# The folders whose edits the gate always tries.
ALWAYS = ("must-fail", "promises")


def standing():
    """Returns, by name, the folders in which an edit stands, as 'iox_run/must-fail'."""
    found = {}
    for folder in (*ALWAYS, "wrong-bodies"):
        for file in sorted(TOP.glob(f"crates/*/{folder}/*.edit")):
            name = file.stem.replace("_", " ")
            found.setdefault(name, []).append(f"{file.parent.parent.name}/{folder}")
    return found


def rows():
    """Returns each row of the table: the promise, and the names of the edits that break it."""
    lines = [it.strip("|").split("|") for it in PAGE.read_text().splitlines() if it.startswith("| ")]
    return [(it[0].strip(), re.findall(r"\*([^*]+)\*", it[1])) for it in lines[1:]]


def faults():
    """Returns what is wrong, a line for each fault."""
    found, wrong = standing(), []
    for promise, names in rows():
        wrong += [f"'{it}' is no edit of a crate ({promise})" for it in names if it not in found]
        if not any(at.partition("/")[2] in ALWAYS for it in names for at in found.get(it, [])):
            wrong.append(f"no edit of must-fail/ or promises/ stands for the promise: {promise}")
    for name, folders in found.items():
        crates = [it.partition("/")[0] for it in folders]
        wrong += [f"'{name}' stands in two folders of {it}" for it in sorted({*crates}) if crates.count(it) > 1]
    return wrong if rows() else [f"{PAGE.name} has no table of promises"]


def main():
    if sys.argv[1:] == ["--check"]:
        wrong = faults()
        for it in wrong:
            print(f"promises: {it}", file=sys.stderr)
        return 1 if wrong else 0
    found = standing()
    for promise, names in rows():
        print(promise)
        for it in names:
            print(f"  {it}: {', '.join(found.get(it, ['(no edit)']))}")
    return 0


if __name__ == "__main__":
    sys.exit(main())
