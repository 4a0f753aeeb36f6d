#!/usr/bin/env python3
"""Says which counts of lines in README.md, docs/THEOREM.md and docs/MODEL.md are not those of the files; exit 1 if any.

    tools/line_counts.py

Of THEOREM it reads the rows that link one file and end in a number; of README the lists `CRATE/specs`: File N, File N. Of the
machine it reads how many lines its spine has, wherever that is told: the files 1 to 7 of MODEL's table.
"""
import pathlib
import re
import sys

TOP = pathlib.Path(__file__).resolve().parent.parent


def told_by_theorem():
    """Returns each file that a row of THEOREM links by itself, with the count there."""
    for line in (TOP / "docs" / "THEOREM.md").read_text().splitlines():
        row = re.fullmatch(r"\|.*\| *(\d+) \|", line)
        files = re.findall(r"\]\(\.\./(\S+\.(?:antt|rt))\)", line)
        if row and len(files) == 1 and line.count("](") == 1:
            yield files[0], int(row[1])


def told_by_readme():
    """Returns each file of specs/ that README names with a count."""
    for crate, files in re.findall(r"`(\w+)/specs`: ((?:\w+ \d+(?:, )?)+)", (TOP / "README.md").read_text()):
        for name, count in re.findall(r"(\w+) (\d+)", files):
            yield f"crates/{crate}/specs/{name}.antt", int(count)


def spine():
    """Returns how many lines the files 1 to 7 of MODEL's table have."""
    rows = re.findall(r"(?m)^\| [1-7] \| `(\w+\.antt)` \|", (TOP / "docs" / "MODEL.md").read_text())
    return sum(len((TOP / "crates/iox_model/specs" / it).read_text().splitlines()) for it in rows)


def told_of_spine():
    """Returns each page that tells how many lines the spine has, with the count there."""
    told = {"README.md": r"`iox_model`: (\d+) to read first", "docs/THEOREM.md": r"to read first, of (\d+) lines", "docs/MODEL.md": r"in this order, (\d+) lines"}
    for page, words in told.items():
        found = re.search(words, (TOP / page).read_text())
        yield page, int(found[1]) if found else None


def faults():
    """Returns what is wrong, a line for each fault."""
    for page, count in told_of_spine():
        if count != spine():
            yield f"{page}: the spine of iox_model has {spine()} lines, and not {count}"
    for page, told in (("README.md", told_by_readme), ("docs/THEOREM.md", told_by_theorem)):
        found = [*told()]
        if not found:
            yield f"{page} tells no counts in the form that is read here"
        for file, count in found:
            is_there = (TOP / file).is_file()
            lines = len((TOP / file).read_text().splitlines()) if is_there else 0
            if lines != count:
                yield f"{page}: {file} has {lines} lines, and not {count}" if is_there else f"{page}: there is no {file}"


if __name__ == "__main__":
    wrong = [*faults()]
    print("\n".join(wrong) or "the counts are right")
    sys.exit(bool(wrong))
