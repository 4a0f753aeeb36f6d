#!/usr/bin/env python3
"""Renames definitions of specs/ everywhere, each in the crate that defines it, by tools/renamed_definitions.txt.

    tools/rename_definitions.py ROOT ..          renames in each tree
    tools/rename_definitions.py --dry ROOT ..    says what would change

A line `CRATE OLD NEW` is a definition of that crate. A word of a file is renamed if the file defines it there, or imports
it: by a `use` of its module, of a module of a crate above that passes it on, or through a name that a file gives the module.
So another definition of the same name keeps it, and a tree that was renamed stays as it is. For a tree from before
tools/renames.txt run tools/rename.py first. Pages are not renamed.
"""
import pathlib
import re
import sys

HERE = pathlib.Path(__file__).resolve().parent
USE = re.compile(r"(?:pub )?use Rattle\.([\w.'-]+?)(?:\.\{([^}]*)\}| as ([\w'-]+))?(?=[\s;]|$)")
NOTE = re.compile(r"(?m)((?:(?<=\s)|^)(?:--|//)[^\n]*)")
PASSED = re.compile(r"(?m)^pub use Rattle\.([\w.'-]+?)(?: as ([\w']+))?$")


def rules():
    found = {}
    for line in (HERE / "renamed_definitions.txt").read_text().splitlines():
        if words := line.split("#")[0].split():
            found[words[0], words[1]] = words[2]
    return found


def word(name):
    return re.compile(rf"(?<![\w'-]){re.escape(name)}(?![\w'-])")


def defines(text, name):
    return re.search(rf"(?m)^(?:(?:pub|abbrev|unfoldable|opaque|data|record)\s+)+{re.escape(name)}(?![\w'-])", text)


def items(inside):
    """The names of a `use`, each with the name that the file gives it, or none."""
    for item in inside.split(","):
        name, _, local = item.strip().partition(" as ")
        yield name, local


class Tree:
    """The texts of a tree, by path, and what each crate passes on of those below."""

    def __init__(self, root, found):
        self.rules, self.olds, self.texts, self.passed = found, {old for _, old in found}, {}, {}
        for path in root.rglob("*"):
            at = path.relative_to(root).as_posix()
            if path.suffix in (".antt", ".rt", ".edit") and path.is_file() and "out" not in at.split("/"):
                self.texts[at] = path.read_text()
        for at, text in self.texts.items():
            if lib := re.fullmatch(r"crates/(\w+)/specs/Lib\.antt", at):
                for use in PASSED.finditer(text):
                    parts = use[1].split(".")
                    self.passed[lib[1], use[2] or parts[-1]] = parts

    def place(self, parts):
        """Where a module stands that crates pass on one to another."""
        while len(parts) > 2 and parts[1] == "specs" and (parts[0], parts[2]) in self.passed:
            parts = self.passed[parts[0], parts[2]] + parts[3:]
        return parts

    def crate_of(self, parts, name):
        """The crate that defines what a module names."""
        parts = self.place(parts)
        text = self.texts.get(f"crates/{'/'.join(parts)}.antt")
        if text is None or defines(text, name):
            return parts[0] if text else None
        for use in USE.finditer(text):
            for item, local in items(use[2]) if use[2] and use[0].startswith("pub ") else ():
                if (local or item) == name:
                    return self.crate_of(use[1].split("."), item)
        return None

    def known(self, at):
        """What becomes of the words of a file, and the modules that it names."""
        text, words, modules = self.texts.get(at, ""), {}, {}
        own = re.match(r"crates/(\w+)/specs/", at)
        for old in self.olds:
            if own and defines(text, old):
                words[old] = self.rules.get((own[1], old), old)
        for use in USE.finditer(text):
            parts = use[1].split(".")
            if use[2] is None:
                modules[use[3] or parts[-1]] = parts
            for name, local in items(use[2] or ""):
                if name in self.olds and not local:
                    words[name] = self.rules.get((self.crate_of(parts, name), name), name)
        return words, modules

    def turned(self, text, words, modules):
        """The text of a file, or of a piece of an edit, with its words turned."""
        out, at = [], 0
        for use in USE.finditer(text):
            out += [self.code(text[at:use.start()], words, modules), self.use_of(use)]
            at = use.end()
        return "".join(out + [self.code(text[at:], words, modules)])

    def use_of(self, use):
        if use[2] is None:
            return use[0]
        named = []
        for name, local in items(use[2]):
            name = self.rules.get((self.crate_of(use[1].split("."), name) if name in self.olds else "", name), name)
            named.append(f"{name} as {local}" if local else name)
        return use[0] if named == [it.strip() for it in use[2].split(",")] else f"{use[0].split('{')[0]}{{{', '.join(named)}}}"

    def code(self, text, words, modules):
        """A piece of code, and of its comments what stands between backticks."""
        parts = NOTE.split(text)
        parts[::2] = [self.words(it, words, modules) for it in parts[::2]]
        parts[1::2] = [re.sub("`[^`]*`", lambda it: self.words(it[0], words, modules), note) for note in parts[1::2]]
        return "".join(parts)

    def words(self, text, words, modules):
        for old in self.olds:
            def turn(found):
                head = re.search(r"([\w']+)\.\Z", text[:found.start()])
                if head:
                    return self.rules.get((self.crate_of(modules[head[1]], old), old), old) if head[1] in modules else old
                return words.get(old, old)
            text = word(old).sub(turn, text) if old in text else text
        return text

    def made(self):
        """The texts that change, by path. An edit is turned as the file that it names."""
        for at, text in self.texts.items():
            if not any(old in text for old in self.olds):
                continue
            if not at.endswith(".edit"):
                new = self.turned(text, *self.known(at))
            else:
                pieces, crate = re.split(r"(?m)^(?=file: )", text), at.rsplit("/", 2)[0]
                files = [re.match(r"file: (\S+)", it) for it in pieces]
                new = "".join(self.turned(it, *self.known(f"{crate}/{of[1]}" if of else "")) for it, of in zip(pieces, files))
            if new != text:
                yield at, new


def main(args):
    roots = [pathlib.Path(it).resolve() for it in args if not it.startswith("--")]
    if not roots:
        sys.exit(__doc__)
    for root in roots:
        made = dict(Tree(root, rules()).made())
        for at, text in made.items() if "--dry" not in args else ():
            (root / at).write_text(text)
        print(f"{root}: {len(made)} files {'would change' if '--dry' in args else 'changed'}")


if __name__ == "__main__":
    main(sys.argv[1:])
