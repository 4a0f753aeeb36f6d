#!/usr/bin/env python3
"""Writes the list of crates in docs/ARCHITECTURE.md from crates.txt and the first sentence of each crate.

    tools/crate_list.py            writes it
    tools/crate_list.py --check    says whether it is as it would be written; exit 1 if not
    tools/crate_list.py --below NAME
                                   prints the lines of crates.txt of that crate and of all that it stands on

In crates.txt a comment line above a group of crates is the group's title. A crate's sentence is the first one of the
`//!` lines of its src/lib.rt or src/main.rt. Of a crate in which no function does anything it says so. A crate of laws has a line for each of its
modules. A library of the toolchain is named as crates.txt names it.

With --check it also refuses a count of folders in docs/USING.md that is not that of --below, a library of ours in crates.txt that
the crate does not name, and more than MOST_WAYS ways down crates.txt in all: some kits' rt sums up the files of a library once for each way that leads down to it, so each needless line
makes the gate slower. A crate passes on what its clauses cite of the crates below it, and then those above need not name them.
"""
import pathlib
import re
import sys

TOP = pathlib.Path(__file__).resolve().parent.parent
PAGE = TOP / "docs" / "ARCHITECTURE.md"
BEGIN, END = "<!-- crates: written by tools/crate_list.py -->", "<!-- end of crates -->"
# A way costs the gate some 3 to 6 ms, of one processor, twice.
MOST_WAYS = 96_000
CRATE = re.compile(r"^([a-z0-9_]+)(?: staticlib)?:(.*)$")


def groups():
    """The titles of crates.txt, each with its crates and what they stand on."""
    found = []
    for line in (TOP / "crates.txt").read_text().splitlines()[1:]:
        crate = CRATE.match(line)
        if line.startswith("# "):
            found.append((line[2:].strip(), []))
        elif crate:
            if not found:
                sys.exit(f"crate_list: {crate[1]} in crates.txt stands below no title")
            found[-1][1].append((crate[1], crate[2].split()))
    return found


def first_sentence(file):
    """The first sentence of what a file says of itself."""
    head = []
    for line in file.read_text().splitlines():
        if not line.startswith("//!"):
            break
        head.append(line[3:].strip())
    first = re.match(r"(.*?\.)(?:\s|$)", " ".join(head))
    if not first:
        sys.exit(f"crate_list: {file.relative_to(TOP)} has no sentence at its head")
    return first[1]


def root_of(name):
    roots = [TOP / "crates" / name / "src" / file for file in ("lib.rt", "main.rt")]
    return next(it for it in roots if it.exists())


def has_code(name):
    """Whether a function of the crate does something. Those of a crate of laws have an empty body each."""
    lines = [line for file in (TOP / "crates" / name / "src").rglob("*.rt") for line in file.read_text().splitlines()]
    return sum(bool(re.search(r"\bfn ", line)) for line in lines) > lines.count("{}")


def modules(name):
    """The modules of a crate of laws, in the order of its definitions."""
    root = root_of(name)
    if "Each module is there for" in root.read_text():
        for camel in re.findall(r"^pub mod (\w+)", (root.parent.parent / "specs" / "Lib.antt").read_text(), re.M):
            yield re.sub(r"(?<!^)([A-Z])", r"_\1", camel).lower()


def section():
    lines = [BEGIN, ""]
    for title, crates in groups():
        lines += [f"### {title}", "", "| Crate | Has | Stands on |", "|---|---|---|"]
        for name, below in crates:
            shown = f"**`{name}`**" if name.startswith("iceoryx2") or name == "iox_run" else f"`{name}`"
            has = first_sentence(root_of(name)) + ("" if has_code(name) or name.startswith("iceoryx2") else " *No code that runs.*")
            lines.append(f"| {shown} | {has} | {', '.join(f'`{it}`' for it in below)} |")
            for module in modules(name):
                lines.append(f"| `{name}::{module}` | {first_sentence(root_of(name).parent / f'{module}.rt')} | |")
        lines.append("")
    return "\n".join(lines + [END])


def text_of(name):
    """All that the crate says: code, statements, proofs and edits."""
    files = [it for part in ("src", "specs", "proofs", "must-fail", "promises", "wrong-bodies") for it in (TOP / "crates" / name / part).rglob("*.*")]
    return "\n".join(it.read_text() for it in files if it.suffix in (".rt", ".antt", ".edit"))


def unnamed():
    """The libraries of ours that a crate is given and does not name, as pairs, without those that are left for now."""
    crates = [crate for _, found in groups() for crate in found]
    ours = {name for name, _ in crates}
    for name, below in crates:
        text = text_of(name)
        for it in below:
            if it in ours and not re.search(rf"\bRattle\.{it}\b|\b{it}::|\buse {it}\b", text):
                yield f"{name}: {it}"


def ways():
    """How many ways lead down from all crates of ours that are no programs: rt sums up those below for each of these."""
    stands_on, found = {}, {}
    for name, libraries in (crate for _, those in groups() for crate in those):
        stands_on[name] = libraries

    def from_one(name):
        if name not in found:
            found[name] = 1 + sum(from_one(it) for it in stands_on[name] if it in stands_on)
        return found[name]

    return sum(from_one(it) for it in stands_on if root_of(it).name == "lib.rt")


def below(name):
    """The crates that a crate stands on, and itself, as pairs, lowest first."""
    crates = [crate for _, found in groups() for crate in found]
    stands_on = dict(crates)
    if name not in stands_on:
        sys.exit(f"crate_list: crates.txt has no {name}")
    found, left = set(), [name]
    while left:
        it = left.pop()
        if it in stands_on and it not in found:
            found.add(it)
            left += stands_on[it]
    return [crate for crate in crates if crate[0] in found]


def miscounted():
    """What docs/USING.md says of how many folders a crate needs with those below it, where that is wrong."""
    for name, count in re.findall(r"(?m)^\| `(\w+)` \| (\d+) \|", (TOP / "docs" / "USING.md").read_text()):
        if len(below(name)) != int(count):
            yield f"{name} needs {len(below(name))} folders, and not {count}"


def main():
    if len(sys.argv) == 3 and sys.argv[1] == "--below":
        for name, libraries in below(sys.argv[2]):
            print(f"{name}: {' '.join(libraries)}".strip())
        return
    page = PAGE.read_text()
    if page.count(BEGIN) != 1 or page.count(END) != 1:
        sys.exit(f"crate_list: {PAGE.name} lacks its two marks")
    before, rest = page.split(BEGIN)
    wanted = before + section() + rest.split(END)[1]
    if "--check" not in sys.argv:
        PAGE.write_text(wanted)
    elif page != wanted:
        sys.exit("crate_list: docs/ARCHITECTURE.md is not as tools/crate_list.py writes it")
    elif found := list(miscounted()):
        sys.exit("crate_list: docs/USING.md: " + ", ".join(found))
    elif found := list(unnamed()):
        sys.exit("crate_list: crates.txt gives crates libraries that they do not name: " + ", ".join(found))
    elif (found := ways()) > MOST_WAYS:
        sys.exit(f"crate_list: {found} ways lead down crates.txt, and there may be {MOST_WAYS}: have a crate pass on what those above it cite")


if __name__ == "__main__":
    main()
