"""What a tree names that is not there: modules, definitions, declared types, files and texts of edits. No prover.

    tools/rename.py --check ROOT ..
"""
import re

USE = re.compile(r"\buse Rattle\.([\w.'-]+?)(?:\.\{([^}]*)\}| as [\w'-]+)?(?=[\s;]|$)")
RUST_USE = re.compile(r"\buse ((?:\w+::)+)(\{[^;]*\}|\w+(?: as \w+)?);", re.S)
MADE = ("Goals", "Given")


def names_of(inside):
    flat = re.sub(r"\s+", " ", inside.strip("{} \n"))
    return [item.split(" as ")[0].strip() for item in flat.split(",") if item.strip()]


class Tree:
    def __init__(self, root):
        self.root = root
        top = root / "crates" if (root / "crates").is_dir() else root.parent
        self.crates = {p.name: p for p in sorted(top.iterdir()) if (p / "src").is_dir() or (p / "specs").is_dir()}
        if not (root / "crates").is_dir():
            self.crates = {root.name: root}
        self.texts, self.said = {}, []

    def text(self, path):
        if path not in self.texts:
            self.texts[path] = path.read_text() if path.is_file() else None
        return self.texts[path]

    def source(self, crate, parts):
        """The file `src/a/b.rt` of a path, or None."""
        path = self.crates[crate] / "src" / ("/".join(parts) + ".rt")
        return self.text(path) if parts else self.text(self.crates[crate] / "src" / "lib.rt")

    def passed(self, crate, part, name):
        """What a crate passes on under this name in its specs or its proofs."""
        lib = self.text(self.crates[crate] / part / "Lib.antt") or ""
        for use in re.finditer(r"(?m)^pub use Rattle\.([\w.'-]+?)(?: as ([\w']+))?$", lib):
            if (use.group(2) or use.group(1).split(".")[-1]) == name:
                return use.group(1).split(".")
        return None

    def why_not(self, parts, names):
        """What is wrong with a path and the names behind it, or None."""
        if parts[0] not in self.crates or len(parts) < 3:
            return None
        crate, part, rest = parts[0], parts[1], parts[2:]
        if part == "specs" and rest[0] in ("declared", "contracts"):
            return self.why_not_declared(crate, rest[1:], names)
        if part == "proofs" and rest[0][0].islower():
            return self.why_not_proof(crate, rest)
        found = self.module(crate, part, rest)
        if found is None:
            seen = self.passed(crate, part, rest[0])
            return self.why_not(seen + rest[1:], names) if seen else f"no module {'.'.join(parts)}"
        text, inside = found
        for name in names or inside:
            if not re.search(rf"(?m)^\s*(?:abbrev |pub |mod |record |data |use .*[{{ ,]|(?:[A-Z]\w* )+)*{re.escape(name)}(?=[\s:,}}]|$)", text):
                return f"{'.'.join(parts)} has no {name}"
        return None

    def module(self, crate, part, rest):
        """The text of the deepest file of a path, and the parts of the path that are names in it; or None."""
        for depth in range(len(rest), 0, -1):
            text = self.text(self.crates[crate] / part / ("/".join(rest[:depth]) + ".antt"))
            if text is not None:
                return text, rest[depth:]
        return None

    def why_not_declared(self, crate, rest, names):
        types = [i for i, p in enumerate(rest) if p[0].isupper()]
        if not types:
            return None
        text, name = self.source(crate, rest[:types[0]]), rest[types[0]]
        if text is None:
            return f"{crate} has no source {'/'.join(rest[:types[0]])}"
        derived = re.sub(r"(?:PartialEq|Eq|Ord|Hash|Clone|Copy|Debug|Display|Model|Words)$", "", name)
        if not re.search(rf"\b(?:struct|enum|trait|type) (?:{name}|{derived})\b", text):
            return f"{crate}/{'/'.join(rest[:types[0]])} declares no {name}"
        if rest[-1] == "TheVariants":
            for variant in names:
                if not re.search(rf"(?m)^\s*{variant}\b|[{{,] *{variant}\b", text):
                    return f"{name} has no variant {variant}"
        return None

    def why_not_proof(self, crate, rest):
        """The last part is a function of the file, of one below it, or of an `impl` that derives its name.
        Behind a type it may stand in any file of the crate, as an `impl` may."""
        rest = [p for p in rest if p not in MADE and p not in ("Answers", "Invariants")]
        for i in range(len(rest), -1, -1):
            text = self.source(crate, rest[:i]) if i or rest else None
            if text is not None:
                of_type = any(p[0].isupper() for p in rest[i:])
                below = self.crates[crate] / "src" / ("" if of_type else "/".join(rest[:i]))
                text += "".join(self.text(p) or "" for p in sorted(below.glob("**/*.rt" if of_type else "*.rt")))
                gone = [p for p in rest[i:] if p[0].islower() and p != "fmt"
                        and not re.search(rf"\b(?:fn|const) {p}\b", text)]
                return f"{crate}: no {gone[0]} for proofs {'/'.join(rest)}" if gone else None
        return f"{crate}: nothing is proved by {'/'.join(rest)}"

    def check_file(self, crate, path):
        text, where = self.text(path), path.relative_to(self.root)
        for use in USE.finditer(text):
            why = self.why_not(use.group(1).split("."), names_of(use.group(2) or ""))
            if why:
                self.said.append(f"{where}: {why}")
        if path.suffix == ".rt":
            self.check_rust(crate, path, text, where)
        if path.name == "Lib.antt":
            if "specs" not in path.parts:
                return
            listed = re.findall(r"(?m)^pub mod (\w+)", text)
            there = {p.stem for p in path.parent.glob("*.antt")} - {"Lib"}
            self.said += [f"{where}: {name} is listed, with no file" for name in set(listed) - there]
            self.said += [f"{where}: {name} is not listed" for name in there - set(listed)]

    def check_rust(self, crate, path, text, where):
        for use in RUST_USE.finditer(text):
            first, *rest = use.group(1).rstrip(":").split("::")
            at = crate if first == "crate" else first
            if at not in self.crates:
                continue
            there = self.source(at, rest)
            for name in names_of(use.group(2)):
                if there is not None and name != "self" and not re.search(rf"\b{name.split('::')[0]}\b", there):
                    self.said.append(f"{where}: {use.group(1)} has no {name}")
            if there is None and not re.search(rf"\b{rest[-1]}\b", self.source(at, rest[:-1]) or rest[-1]):
                self.said.append(f"{where}: no source {use.group(1)}")
        for clause in re.split(r"\bfn ", text)[1:]:
            labels = re.findall(r"(?m)^\s*(ensures \w+|requires \w+) \{", clause.split("\n    {\n")[0])
            for label in {x for x in labels if labels.count(x) > 1}:
                self.said.append(f"{where}: {clause.split('(')[0]} has two clauses {label}")

    def check_edit(self, crate, path):
        text, where = self.text(path), path.relative_to(self.root)
        for piece in re.split(r"(?m)^(?=file: )", text):
            named = re.match(r"file: (\S+)\n", piece)
            if not named:
                continue
            there = self.text(self.crates[crate] / named.group(1))
            if there is None:
                self.said.append(f"{where}: no file {named.group(1)}")
                continue
            # the pairs are replaced one after another
            for old, new in re.findall(r"(?m)^old: ?(.*)\nnew: ?(.*)", piece):
                if old not in there:
                    self.said.append(f"{where}: {named.group(1)} does not have what the edit replaces")
                there = there.replace(old, new, 1)


def check(root):
    """Says what is wrong; whether anything is."""
    tree = Tree(root)
    for crate, at in tree.crates.items():
        for path in sorted(at.rglob("*")):
            if "out" in path.relative_to(at).parts or not path.is_file():
                continue
            if path.suffix in (".antt", ".rt"):
                tree.check_file(crate, path)
            elif path.suffix == ".edit":
                tree.check_edit(crate, path)
            if path.name in ("Answers.antt", "Invariants.antt") and "proofs" in path.relative_to(at).parts[:-2]:
                why = tree.why_not_proof(crate, list(path.relative_to(at / "proofs").parts[:-1]))
                if why:
                    tree.said.append(f"{path.relative_to(root)}: {why}")
    listed = tree.text(root / "crates.txt") or ""
    for line in listed.splitlines():
        if line and not line.startswith("#"):
            tree.said += [f"crates.txt: no crate {name}" for name in re.findall(r"\biox_\w+", line)
                          if name not in tree.crates and (root / "crates").is_dir()]
    for said in tree.said:
        print(said)
    print(f"{root}: {len(tree.said)} names or files that are not there")
    return bool(tree.said)
