"""An edit, and the one function whose body it changes."""
import os
import re
import subprocess
import tempfile

# Words in a body that begin an item of its own, which more than the body may see.
ITEMS = {"fn", "impl", "trait", "struct", "enum", "const", "static", "macro_rules"}


class Edit:
    def __init__(self, file):
        self.file, self.name, self.verdict, self.said = file, os.path.basename(file)[: -len(".edit")], "", ""
        # The function whose body alone the edit changes, its new body, and the names that a check may give it.
        self.function, self.body, self.symbols = None, b"", []
        # The name under which a check refused it.
        self.where = ""

    def settle(self, verdict, said="", where=""):
        self.verdict, self.said, self.where = verdict, said, where

    def goes_with(self, other):
        """Whether one check can tell the two edits apart."""
        return self.function is not other.function and not {*self.symbols} & {*other.symbols}


def outside(data, functions):
    """Returns the text outside of the functions' bodies, in parts."""
    ends = [0, *[at for f in sorted(functions, key=lambda it: it.opens) for at in (f.opens, f.end)], len(data)]
    return [data[a:b] for a, b in zip(ends[::2], ends[1::2])]


class Functions:
    """A crate's functions, as its text has them and, once name() is called, as a check names them."""

    def __init__(self, kit, crate):
        self.kit, self.crate, self.rows = kit, crate, {}
        self.source = kit.bodies.Source(crate.folder)
        self.source.read("src/main.rt" if crate.is_program else "src/lib.rt")

    def place(self, edit):
        """Finds the one function whose body the edit changes. An edit of anything else gets none."""
        texts, why = self.kit.rt.read_edit(edit.file, self.crate.folder)
        path = "".join(texts) if not why and len(texts) == 1 else ""
        new = self.reread(path, texts[path]) if path in self.source.data else None
        if not new:
            return
        old = self.source
        olds, news = ([f for f in it.functions if f.file == path and f.has_body] for it in (old, new))
        if len(olds) != len(news) or outside(old.data[path], olds) != outside(new.data[path], news):
            return
        changed = [(f, g) for f, g in zip(olds, news) if self.body(old, f) != self.body(new, g)]
        if len(changed) != 1:
            return
        f, g = changed[0]
        # (the value of a constant may come of a const fn)
        is_const = re.search(rb"\bconst\b", old.data[path][f.first : f.start])
        has_items = ITEMS & {*f.body, *g.body} or self.clauses(old, f) != self.clauses(new, g)
        if not (has_items or f.in_cycle or is_const):
            edit.function, edit.body = f, self.body(new, g)

    def name(self, edits, rows, is_all):
        """Finds the names that a check gives the edits' functions, by the rows that it printed, of all functions or of some.
        Returns the edits of which none is found. Among some, a name counts only if no other function can have it."""
        self.rows = rows
        for it in edits:
            found = self.symbols_of(it.function) if it.function else []
            it.symbols = found if is_all or self.is_sure(it.function, found) else []
        return [it for it in edits if it.function and not it.symbols]

    def is_sure(self, f, symbols):
        """Whether these names are the function's own, though the rows are not of all functions."""
        namesakes = [it for it in self.source.functions if (it.owner, it.name) == (f.owner, f.name)]
        start = "::".join([self.crate.name, *f.module, ""])
        return len(namesakes) == 1 or any(it.startswith(start) and it.count("::") == start.count("::") + 1 for it in symbols)

    @staticmethod
    def path_of(f):
        """Returns a path by which a check finds the function, below the crate, before any check has named it: that of its module where
        its own name is not known, as of a method of a trait, or of a type with arguments (which its name has too)."""
        if not f.block:
            return "::".join([*f.module, f.name])
        words = {it for it in f.block.ty[1:] if it.isidentifier()}
        return "::".join(f.module) if f.in_trait or words - {*f.block.generics, "_"} else f"{f.owner}::{f.name}"

    def shown(self, edits):
        """Returns the names that a check gives the edits' functions, below the crate, without their closures."""
        found = {it.removeprefix(f"{self.crate.name}::") for edit in edits for it in edit.symbols}
        return [it for it in found if "::fn::" not in it]

    def reread(self, path, text):
        """Reads the functions of one file with this text, or returns None where they cannot be read."""
        with tempfile.TemporaryDirectory(prefix="place-") as folder:
            os.makedirs(os.path.dirname(f"{folder}/{path}"))
            with open(f"{folder}/{path}", "w", encoding="utf-8") as it:
                it.write(text)
            new = self.kit.bodies.Source(folder, follows=False)
            try:
                new.read(path)
            except (subprocess.CalledProcessError, LookupError, ValueError):
                return None
        return new

    @staticmethod
    def body(source, f):
        return source.data[f.file][f.opens : f.end]

    @staticmethod
    def clauses(source, f):
        return [word for at, word in source.antt[f.file] if f.opens <= at < f.end]

    def symbols_of(self, f):
        """Returns the names that a check may give the function and its closures. fits() knows how an impl's name is made."""
        start = "::".join([self.crate.name, *f.module, ""])
        owners = [(it, it.split("::")[-2]) for it in self.rows if it.split("::")[-1] == f.name]
        if not f.block:
            found = [it for it, _ in owners if it == start + f.name]
        elif f.in_trait and f.block.trait != ["Drop"]:
            found = [it for it, owner in owners if it == f"{start}{owner}::{f.name}"]
            is_trait = f.block.is_trait
            found = [it for it in found if (it.split("::")[-2] == f.block.trait[0] if is_trait else f.block.fits(it.split("::")[-2]))]
        else:
            # (a type's own methods, and its drop, have names below the type's module, wherever the impl stands)
            found = [(it, owner) for it, owner in owners if owner.partition("+")[0] == f.owner]
            found = [it for it, owner in found if it == f"{start}{owner}::{f.name}"] or [it for it, _ in found]
        return found + [it for it in self.rows if found and f.name in it.partition("::fn::")[2].split("::")]

    def written(self, edits):
        """Returns the texts of the files with these edits' bodies, and the file and lines of each edit's function there."""
        texts, places = {}, {}
        for path in {it.function.file for it in edits}:
            data, text, at = self.source.data[path], b"", 0
            for edit in sorted((it for it in edits if it.function.file == path), key=lambda it: it.function.opens):
                f = edit.function
                text += data[at : f.first]
                first, at = text.count(b"\n") + 1, f.end
                text += data[f.first : f.opens] + edit.body
                places[edit] = path, range(first, text.count(b"\n") + 2)
            texts[path] = (text + data[at:]).decode("utf-8")
        return texts, places
