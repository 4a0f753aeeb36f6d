#!/usr/bin/env python3
"""Renames crates, modules, definitions, variants, methods and fields everywhere, by a list of pairs.

    tools/rename.py ROOT ..            renames in each tree; says what is left over or collides
    tools/rename.py --dry ROOT ..      says what would change
    tools/rename.py --check ROOT ..    changes nothing; says which paths name nothing (tools/rename_check.py)

A tree has `crates/` or is a crate. The list is tools/renames.txt beside this script; `--list FILE` takes another.
A tree that is renamed already stays as it is. Names are found by what a file imports, so a tree that only cites
the crates whose names change can be carried over as well. Kinds of lines in the list, `#` begins a comment:

    moved OLD NEW               a path prefix, `Rattle.a.specs.B` or `a::B`; applied first, before all others
    alias OLD NEW               the rules of crate NEW stand for crate OLD too
    crate OLD NEW               a crate, its folder, and the word wherever it stands
    module PATH NEW             `CRATE.specs.OLD`: its file, and every path that names it
    source CRATE OLD NEW        a file `src/OLD.rt`, with the paths that name it
    name CRATE OLD NEW          a definition, a type or a free function of the crate
    variant CRATE TYPE OLD NEW  a variant of a type
    word CRATE OLD NEW          a part of every name that the crate defines, and of its comments
    member CRATES OLD NEW       a method or a field, in these crates (comma between them), wherever it follows a dot
    local FILE OLD NEW          every such word of one file, or of a crate
    prose CRATE OLD => NEW      words in comments of a crate, or on a page
    joined OLD NEW MODULE       a crate that is a module of another now; applied last
    page FILE CRATE             the crate whose names a page has between backticks, where it names none
"""
import pathlib
import re
import sys

import rename_check
import rename_joined
import rename_tree

HERE = pathlib.Path(__file__).resolve().parent


class Rules:
    """The list, by kind."""

    def __init__(self, path):
        self.moved, self.alias, self.crates, self.modules, self.sources = [], {}, {}, {}, {}
        self.names, self.variants, self.words, self.members, self.locals, self.prose = {}, {}, {}, {}, [], {}
        self.pages, self.seen, self.joined = {}, {}, {}
        for line in path.read_text().splitlines():
            kind, *rest = line.split("#")[0].split() or [""]
            if kind == "prose":
                old, new = line.split(None, 2)[2].split(" => ")
                for crate in rest[0].split(","):
                    self.prose.setdefault(crate, []).append((old, new))
            elif kind:
                getattr(self, "add_" + kind)(*rest)
        self.olds = {o for _, o in self.names} | {o for _, _, o in self.variants} | {o for _, o in self.sources}
        self.olds |= {o for found in self.members.values() for o in found} | {o for _, o, _ in self.locals}
        parts = {old for found in self.words.values() for old, _ in found} | {"-"}
        self.parts = re.compile("|".join(map(re.escape, sorted(parts))))
        self.ruled = {crate for crate, _ in self.names} | set(self.words)

    def add_moved(self, old, new):
        self.moved.append((old, new))

    def add_alias(self, old, new):
        self.alias[old] = new

    def add_crate(self, old, new):
        self.crates[old] = new

    def add_module(self, path, new):
        self.modules[tuple(path.split("."))] = new

    def add_source(self, crate, old, new):
        self.sources[crate, old] = new

    def add_name(self, crates, old, new):
        for crate in crates.split(","):
            self.names[crate, old] = new

    def add_variant(self, crate, kind, old, new):
        self.variants[crate, kind, old] = new

    def add_word(self, crates, old, new):
        for crate in crates.split(","):
            self.words.setdefault(crate, []).append((old, new))

    def add_member(self, crates, old, new):
        for crate in crates.split(","):
            self.members.setdefault(crate, {})[old] = new

    def add_local(self, path, old, new):
        self.locals.append((path, old, new))

    def add_page(self, path, crate):
        self.pages[path] = crate

    def add_joined(self, old, new, module):
        self.joined[old] = new, module

    def of(self, crate):
        """The crate by whose rules a crate's names go."""
        crate = self.crates.get(crate, crate)
        return self.alias.get(crate, crate)

    def worded(self, crate, name):
        """The name with the words of its crate replaced."""
        if (crate, name) not in self.seen:
            new_name = name
            for old, new in self.words.get(crate, []) + self.words.get("all", []):
                new_name = in_words(new_name, old, new) if old in new_name else new_name
            self.seen[crate, name] = new_name
        return self.seen[crate, name]

    def named(self, crate, name):
        """The new name of what a crate defines."""
        crate = self.of(crate)
        if (crate, name) in self.names:
            return self.names[crate, name]
        return self.worded(crate, name)

    def module(self, crate, part, name):
        """The new name of a module below `specs` or `proofs`, or of a source file."""
        crate = self.of(crate)
        return self.modules.get((crate, part, name)) or self.worded(crate, name)

    def source(self, crate, name):
        """The new name of a file below `src`, or of a folder there."""
        crate = self.of(crate)
        return self.sources.get((crate, name)) or self.worded(crate, name)


def in_words(name, old, new):
    """The name, where `old` or its plural is one of its parts; its letters are as the list has them."""
    before = "(?<![a-z])" if old[0].islower() else "(?<![A-Z])"
    return re.sub(rf"{before}{old}(s?)(?![a-z])", rf"{new}\1", name)


def rename(root, rules, dry):
    tree = rename_tree.Tree(root, rules)
    tree.move()
    tree.read()
    made = {}
    for path, text in tree.new.items():
        if path.endswith((".antt", ".rt", ".rt.in", ".antt.in")):
            made[tree.place(path)] = tree.turned(path, text)
        elif path.endswith(".edit"):
            made[tree.place(path)] = rename_tree.edit(tree, path, text)
        elif path.endswith(".md"):
            made[tree.place(path)] = rename_tree.page(tree, path, text)
        else:
            made[path] = text
    made = rename_joined.joined(made, rules)
    gone = [p for p in tree.old if p not in made]
    changed = [p for p, t in made.items() if tree.old.get(p) != t]
    for path in [] if dry else gone:
        (root / path).unlink()
    for path in [] if dry else changed:
        (root / path).parent.mkdir(parents=True, exist_ok=True)
        (root / path).write_text(made[path])
    for said in tree.said + left_over(rules, made):
        print(said)
    print(f"{root}: {len(changed)} files {'would change' if dry else 'changed'}, {len(gone)} paths gone")


def left_over(rules, made):
    """Old names with a capital that still stand in the code of their crate."""
    said = []
    for path, text in made.items():
        crate = re.search(r"crates/(\w+)/", path)
        if not crate or not path.endswith((".antt", ".rt")):
            continue
        code = re.sub(r"(?m)(?:--|//).*$", "", text)
        for (at, old), new in rules.names.items():
            if at == rules.of(crate.group(1)) and not old[0].islower() and re.search(
                    rf"(?<![\w.:'-]){old}(?![\w'-])", code) and not re.search(
                    rf"\buse (?!Rattle\.{crate.group(1)}\.)[^\n]*(?<![\w'-]){old}(?![\w'-])", code):
                said.append(f"{path}: {old} still stands, for which {new} was to be")
    return said


def main(args):
    listed = HERE / "renames.txt"
    if "--list" in args:
        listed = pathlib.Path(args.pop(args.index("--list") + 1))
        args.remove("--list")
    roots = [pathlib.Path(a).resolve() for a in args if not a.startswith("--")]
    if not roots:
        sys.exit(__doc__)
    if "--check" in args:
        sys.exit(any([rename_check.check(root) for root in roots]))
    for root in roots:
        rename(root, Rules(listed), "--dry" in args)


if __name__ == "__main__":
    main(sys.argv[1:])
