#!/usr/bin/env python3
"""Writes docs/LAWS.md: the laws of the theory crates, one clause a row.

    tools/laws_list.py            writes the page
    tools/laws_list.py --check    says whether it is as it would be written; exit 1 if not

A law is a public function whose body is empty, in a crate's src/lib.rt or in a module of a crate of laws: it is there for
its contract. A law of any hub is lent one, and its body asks only whether that is in order, which a hub always is. The sentence of a clause is the comment above its definition in specs/. Where the clause says something of one
worked run, as `IsWorked expires_one`, it is the comment above that run. Else it is the function's own.
"""
import pathlib
import re
import sys

TOP = pathlib.Path(__file__).resolve().parent.parent
PAGE = TOP / "docs" / "LAWS.md"
HEAD = """# The laws, clause by clause

Written by `tools/laws_list.py` from the crates. Each row is a clause of a public function that does nothing and is there
for its contract; the gate proves it. The definition that a clause names stands in the crate's `specs/`.
"""
LAW = re.compile(r"((?:^///.*\n)+)(?:^#\[.*\n)*^pub fn (\w+)(?:<[^(]*>)?\([^)]*\)\n((?:^    .*\n|^\n)*?)^\{(?:\}|\n    hub\.is_in_order\(\);\n\})", re.M)
CLAUSE = re.compile(r"ensures (?:(\w+) )?\{ (.*?) \}\s*(?=ensures|$)", re.S)
DEFINED = re.compile(r"((?:^-- .*\n)*)^(?:abbrev pub|pub record|pub data) (\S+)", re.M)


def joined(comment, mark):
    return " ".join(line.removeprefix(mark).strip() for line in comment.splitlines()).strip()


def definitions(specs):
    """The comment above each definition of a crate, or of a module of it."""
    found = {}
    for file in sorted(specs.glob("**/*.antt")):
        for comment, name in DEFINED.findall(file.read_text()):
            if comment and not comment.startswith("-- ----"):
                found[name] = joined(comment, "--")
    return found


def as_sentence(text):
    text = (text[:1].upper() + text[1:]).rstrip(",;")
    return text if text.endswith(".") else text + "."


def rows_of(source, specs):
    """The laws of a file as rows: function, clause, what it says."""
    said, rows, code = definitions(specs), [], source.read_text()
    for crate, names in re.findall(r"(?m)^ghost use Rattle\.(\w+)\.specs\.[\w.]+\.\{([^}]*)\};", code):
        there = {} if TOP / "crates" / crate in specs.parents else definitions(TOP / "crates" / crate / "specs")
        said.update({it: there[it] for it in names.split(", ") if it in there and it not in said})
    for comment, name, clauses in LAW.findall(code):
        own = joined(comment, "///")
        for clause, text in CLAUSE.findall(clauses):
            text = " ".join(text.split())
            of_run = re.fullmatch(r"IsWorked (\w+)", text)
            told = said.get(of_run[1] if of_run else text.removesuffix(" hub.now"))
            says = as_sentence(told) if told else own
            shown = f"`{clause}`: " if clause else ""
            rows.append(f"| `{name}` | {shown}`{text}` | {says} |")
    return rows


def sources(crate):
    """The files of a crate that have laws, each with its name on the page and the folder of its definitions."""
    root = crate / "src" / "lib.rt"
    text = root.read_text() if root.exists() else ""
    if "each is there for its contract" in text:
        yield root, crate.name, crate / "specs"
    for file in sorted((crate / "src").glob("*.rt")) if root.exists() else ():
        if file != root and "each is there for its contract" in file.read_text() and "Each module is there for" not in text:
            yield file, f"{crate.name}::{file.stem}", crate / "specs"
    if "Each module is there for" in text:
        order = re.findall(r"^pub mod (\w+)", (crate / "specs" / "Lib.antt").read_text(), re.M)
        for module in sorted(re.findall(r"(?m)^pub mod (\w+);", text), key=lambda it: order.index(camel(it))):
            yield crate / "src" / f"{module}.rt", f"{crate.name}::{module}", crate / "specs" / camel(module)


def camel(name):
    """A module's name as that of its definitions: `hub_books`, `HubBooks`."""
    return "".join(part.capitalize() for part in name.split("_"))


def page():
    lines = [HEAD]
    for name in re.findall(r"(?m)^(\w+):", (TOP / "crates.txt").read_text()):
        for source, shown, specs in sources(TOP / "crates" / name):
            rows = rows_of(source, specs)
            if rows:
                head = [it[3:].strip() for it in source.read_text().splitlines() if it.startswith("//!")]
                title = re.match(r"(.*?\.)(?:\s|$)", " ".join(head))[1]
                lines += [f"## `{shown}`", "", title, "", "| Law | Clause | Says |", "|---|---|---|", *rows, ""]
    return "\n".join(lines)


def main():
    if sys.argv[1:] not in ([], ["--check"]):
        sys.exit(__doc__)
    wanted = page()
    if not sys.argv[1:]:
        PAGE.write_text(wanted)
    elif not PAGE.exists() or PAGE.read_text() != wanted:
        sys.exit("laws_list: docs/LAWS.md is not as tools/laws_list.py writes it")


if __name__ == "__main__":
    main()
