"""The texts of a tree, and what becomes of each of their words by the rules of tools/rename.py."""
import re

ID = r"[^\W\d][\w']*(?:-[\w']+)*"
TEXTS = (".antt", ".rt", ".edit", ".md", ".txt", ".in", ".py")
USE = re.compile(r"\b(?:pub )?use (Rattle\.[\w.'-]+?)(?:\.\{([^}]*)\}| as ([\w'-]+))?(?=[\s;]|$)")
RUST_USE = re.compile(r"\buse ((?:\w+::)+)(\{[^;]*\}|\w+(?: as \w+)?|\*);", re.S)


class Tree:
    """All texts of a tree, by path, and what is renamed in them."""

    def __init__(self, root, rules):
        self.root, self.rules, self.said, self.made_by = root, rules, [], {}
        self.old = {}
        for path in sorted(root.rglob("*")):
            parts = path.relative_to(root).parts
            if path.is_file() and "out" not in parts and ".git" not in parts and (
                    path.suffix in TEXTS or path.name == "run") and not path.name.startswith(("rename.", "rename_", "renames.", "GLOSSARY.")):
                self.old[path.relative_to(root).as_posix()] = path.read_text()
        self.new = dict(self.old)
        self.alone = not any("/src/" in "/" + p for p in self.old if p.startswith("crates/")) and "src" in {
            p.split("/")[0] for p in self.old}

    # ---- whole paths and crates

    def has(self, path):
        """Whether the tree has what a path names: a crate, a module, or a type that a file declares."""
        _, crate, *rest = path.split(".")
        if rest[:2] == ["specs", "declared"]:
            text = self.old.get(f"crates/{crate}/src/{'/'.join(rest[2:-1])}.rt", "")
            return bool(re.search(rf"\b(?:struct|enum|trait) {rest[-1]}\b", text))
        return any(p.startswith(f"crates/{crate}/" + "/".join(rest)) for p in self.old)

    def move(self):
        """The moves between crates, of what is not in this tree as it was, and the crates' own names."""
        crates = self.rules.crates
        moved = [(old, new) for old, new in self.rules.moved if not self.has(old)]

        def text_of(text):
            for old, new in moved:
                if old in text:
                    text = re.sub(rf"(?<![\w.:]){re.escape(old)}(?![\w'])", new, text)
            return re.sub(r"(?<![\w-])iox_\w+(?![\w-])", lambda f: crates.get(f.group(0), f.group(0)), text)

        def path_of(path):
            return "/".join(self.rules.crates.get(part, part) for part in path.split("/"))
        self.new = {path_of(p): text_of(t) for p, t in self.new.items()}

    def crate_of(self, path):
        parts = path.split("/")
        if "crates" in parts[:-2]:
            return parts[parts.index("crates") + 1]
        return self.root.name if self.alone else ""

    # ---- what a file imports

    def read(self):
        """What the tree's crates are, and what they pass on."""
        self.crates = {self.crate_of(path) for path in self.new} | {crate for crate, _ in self.rules.names}
        self.crates |= set(self.rules.words) | set(self.rules.alias) | {"iox_types", "iox_words"}
        self.passed = self.facades()

    def makers(self, name):
        """The crates that define this name in their specs, or declare it."""
        if name not in self.made_by:
            here = re.compile(rf"(?m)^\s*(?:abbrev pub|pub record|pub data|pub struct|pub enum|pub trait|pub fn) {re.escape(name)}\b")
            self.made_by[name] = {self.crate_of(path) for path, text in self.new.items()
                                  if ("/specs/" in path or "/src/" in path) and name in text and here.search(text)}
        return self.made_by[name]

    def facades(self):
        """For each module that a crate passes on from another: its own place."""
        found = {}
        for path, text in self.new.items():
            crate = self.crate_of(path)
            if path.endswith("specs/Lib.antt"):
                for use in re.finditer(r"^pub use Rattle\.([\w.'-]+?)(?: as ([\w']+))?$", text, re.M):
                    parts = use.group(1).split(".")
                    found[crate, "specs", use.group(2) or parts[-1]] = parts
            elif path.endswith(".rt"):
                for use in RUST_USE.finditer(text):
                    for name, local in items_of(use.group(2).strip("{}")):
                        if text[: use.start()].endswith("pub "):
                            first = use.group(1).split("::")[0]
                            if first in self.crates:
                                found.setdefault((crate, "src", local), [first, name])
        return found

    def imports(self, path, text):
        """Each word that a file imports: the crate, the type of a variant or None, the name there."""
        crate, found = self.crate_of(path), {}
        for use in USE.finditer(text):
            parts = use.group(1).split(".")[1:]
            seen = self.passed.get((parts[0], "specs", parts[2] if len(parts) > 2 else ""))
            parts = seen + parts[3:] if seen else parts
            if use.group(2) is None:
                if use.group(3) and parts[-1] == "TheVariants":
                    found[use.group(3)] = (parts[0], parts[-2], None)
                elif use.group(3):
                    found[use.group(3)] = (parts[0], None if parts[-1] in ("Goals", "Given") else "*", None)
                continue
            kind = parts[-2] if parts[-1] == "TheVariants" else None
            for name, local in items_of(use.group(2)):
                found[local] = (parts[0], kind, name)
        if path.endswith((".rt", ".rt.in", ".edit")):
            for use in RUST_USE.finditer(text):
                first = use.group(1).split("::")[0]
                if first not in self.crates and first != "std":
                    if use.group(2) == "*" and first == "super" and "/" in path:
                        up = path.rsplit("/", 1)[0] + ".rt"
                        up = up if up in self.new else path.rsplit("/", 1)[0] + "/lib.rt"
                        for local, what in self.imports(up, self.new[up]).items() if up in self.new else ():
                            found.setdefault(local, what)
                    first = crate
                for name, local in items_of(use.group(2).strip("{}")):
                    seen = self.passed.get((first, "src", name))
                    found.setdefault(local, (seen[0], None, seen[1]) if seen else (first, None, name))
        return found

    # ---- the words of a file

    def word_map(self, path, whole):
        """What becomes of a word of a file, as a function of it and of what stands before and behind it."""
        rules, crate, told = self.rules, self.crate_of(path), self.imports(path, whole)
        own = rules.of(crate)
        proof = "/proofs/" in path and path.rsplit("/", 1)[1] in ("Answers.antt", "Invariants.antt")
        here = [(old, new) for at, old, new in rules.locals
                if path == at or own == at]
        fields = fields_of(whole)
        members = {**rules.members.get("all", {}), **rules.members.get(crate, {}), **rules.members.get(own, {})}

        def turn(word, before, behind):
            base = word.rstrip("'")
            primes = word[len(base):]
            for old, new in here:
                if base == old:
                    return new + primes
            if before.endswith("type ") and path.endswith((".rt", ".rt.in", ".edit")):
                return word
            dotted = re.search(r"(?:\.|::)$", before)
            label = in_label(before, behind) and (base in fields or not before.endswith("pub "))
            head = re.search(r"([\w']+)(?:\.|::)$", before)
            if (behind.startswith("::") or before.endswith("mod ")) and (own, base) in rules.sources:
                return rules.sources[own, base]
            if dotted and head:
                at, kind, name = told.get(head.group(1), (own, head.group(1), None))
                new = rules.variants.get((rules.of(at), kind or name, base))
                if new:
                    return new + primes
                if kind == "*":
                    return rules.named(at, base) + primes
                if before.endswith("::") and (head.group(1)[0].islower() and not base.islower()
                                              or rules.of(head.group(1)) in rules.ruled):
                    at = head.group(1) if rules.of(head.group(1)) in rules.ruled else own
                    return rules.named(*(self.passed.get((at, "src", base)) or (at, base))) + primes
            elif base in told and not label:
                at, kind, name = told[base]
                if kind and name:
                    return rules.variants.get((rules.of(at), kind, name), name if name == base else base) + primes
                return (rules.named(at, name) if name == base else base) + primes
            if base in members and (dotted or label or before.endswith(("fn ", "ghost "))):
                return members[base] + primes
            variant = [new for (at, kind, old), new in rules.variants.items() if (at, old) == (own, base)]
            if variant and path.endswith(".rt") and not dotted and re.match(r"\s*[(,{]", behind):
                return variant[0]
            if not dotted and not label and (own, base) in rules.names:
                return rules.names[own, base] + primes
            if proof and "-" in base:
                base = "-".join(dict(here).get(p) or members.get(p) or rules.names.get((own, p), p)
                                for p in base.split("-"))
            return rules.worded(own, base) + primes
        return turn

    def turned(self, path, text, whole=None):
        """The text of a file, each word of its code turned."""
        rules, crate = self.rules, self.crate_of(path)
        turn = self.word_map(path, whole or text)
        mark = "--" if path.endswith((".antt", ".antt.in")) else "//"
        parts = re.compile(rf"(?P<note>(?:(?<=\s)|^){mark}[^\n]*)|(?P<string>\"(?:\\.|[^\"\\])*\")|(?P<use>{USE.pattern})"
                           rf"|(?P<mod>^pub mod \w+$)|(?P<word>{ID})", re.M)
        kept, made = set(), {}

        def one(found):
            kind, was = found.lastgroup, found.group(0)
            if found.group("note"):
                return self.note(crate, was, turn)
            if found.group("string"):
                return was
            if found.group("use"):
                return self.use_line(re.match(USE, was))
            if found.group("word") and was.rstrip("'") not in rules.olds and not rules.parts.search(was):
                kept.add(was)
                return was
            before, behind = text[max(0, found.start() - 80):found.start()], text[found.end():found.end() + 40]
            if found.group("mod") and path.endswith("Lib.antt"):
                return "pub mod " + rules.module(crate, path.split("/")[-2], was.split()[-1])
            new = turn(was, before, behind)
            (kept.add(was) if new == was else made.setdefault(new, was))
            return new
        out = parts.sub(one, text)
        for new in sorted(kept & set(made)):
            if not path.endswith(".edit"):
                self.said.append(f"{path}: {made[new]} becomes {new}, which stands there already")
        return out

    def note(self, crate, text, turn):
        """A comment: names between backticks, and the words of the crate."""
        text = re.sub(r"`[^`]*`", lambda s: re.sub(ID, lambda w: turn(
            w.group(0), s.group(0)[:w.start()], s.group(0)[w.end():]), s.group(0)), text)
        for old, new in self.rules.prose.get(self.rules.of(crate), []):
            text = re.sub(rf"(?<![\w`]){old}(?![\w`])", new, text)
        return text

    def use_line(self, found):
        """A `use` of definitions, its path and its names turned."""
        rules, path, inside = self.rules, found.group(1), found.group(2)
        parts = path.split(".")[1:]
        seen = self.passed.get((parts[0], "specs", parts[2] if len(parts) > 2 else ""))
        parts = seen + parts[3:] if seen else parts
        whole = found.group(0).replace(path, self.path(path), 1)
        if inside is None:
            return whole
        items = []
        for name, local in items_of(inside):
            at = rules.of(parts[0])
            new = (rules.variants.get((at, parts[-2], name), name) if parts[-1] == "TheVariants"
                   else rules.named(at, name))
            items.append(new if local in (name, new) else f"{new} as {local}")
        return whole.replace("{" + inside + "}", "{" + ", ".join(items) + "}")

    def path(self, path):
        """A path `Rattle.crate.specs.Module` .. with its modules, files and types turned."""
        parts, rules = path.split("."), self.rules
        if len(parts) < 4 or parts[0] != "Rattle":
            return path
        crate, part, rest = parts[1], parts[2], parts[3:]
        if rest[0] in ("declared", "contracts"):
            rest = rest[:1] + self.items(crate, rest[1:])
        elif part == "proofs" and rest[0][0].islower():
            rest = self.items(crate, rest)
        else:
            seen = self.passed.get((crate, "specs", rest[0])) if part == "specs" else None
            if seen and seen[-1] == rest[0] and seen[2] != "declared":
                rest = [rules.module(seen[0], seen[1], seen[2])] + rest[1:]
            elif seen and seen[-1] == rest[0]:
                rest = [rules.named(seen[0], rest[0])] + rest[1:]
            elif not seen:
                rest = [rules.module(crate, part, rest[0])] + rest[1:]
        return ".".join(parts[:3] + rest)

    def place(self, path):
        """Where a file goes."""
        rules, crate = self.rules, self.crate_of(path)
        parts = path.split("/")
        for i, part in enumerate(parts[:-1]):
            if part in ("specs", "proofs", "src") and crate:
                rest, name = parts[i + 1:-1], parts[-1]
                stem, dot, end = name.partition(".")
                if part == "src":
                    rest, stem = [rules.source(crate, p) for p in rest], rules.source(crate, stem)
                elif rest:
                    rest = self.items(crate, rest)
                else:
                    stem = rules.module(crate, part, stem)
                return "/".join(parts[:i + 1] + rest + [stem + dot + end])
        return path

    def items(self, crate, parts):
        """A path of files, a type and a function below `declared` or `proofs`."""
        rules, own, out = self.rules, self.rules.of(crate), []
        for i, part in enumerate(parts):
            if part in ("TheVariants", "Goals", "Given", "Answers", "Invariants"):
                out.append(part)
            elif part[0].isupper():
                out.append(rules.named(crate, part))
            elif any(p[0].isupper() for p in parts[:i]):
                out.append(rules.members.get(own, {}).get(part) or rules.worded(own, part))
            elif i and (own, part) in rules.names:
                out.append(rules.names[own, part])
            else:
                out.append(rules.source(crate, part))
        return out


def items_of(inside):
    """The names of a `use` with what each is called in the file."""
    for item in re.split(r"[,\s{}]\s*(?!as\b)(?<!\bas )", inside.replace("\n", " ")):
        name, _, local = item.partition(" as ")
        if name.strip():
            yield name.strip().split("::")[-1], (local or name).strip().split("::")[-1]


def fields_of(text):
    """The names of the fields of all records of a file."""
    found, deep = set(), None
    for line in text.split("\n"):
        indent = len(line) - len(line.lstrip())
        if deep is not None and line.strip() and indent <= deep and not line.lstrip().startswith(("(", "→", "--")):
            deep = None
        if re.match(r"\s*(?:pub )?record [\w']+", line):
            deep = indent
        field = re.match(r"\s+pub ([\w']+) :", line)
        if deep is not None and field:
            found.add(field.group(1))
    return found


def in_label(before, behind):
    """Whether a word is a label of a clause or a field of a record: `ensures word {`, `word =`."""
    if re.search(r"\b(?:ensures|requires|maintains|invariant) $", before) and re.match(r" \{", behind):
        return True
    if re.match(r" = ", behind) and re.search(r"(?:[{;]|\brecord [\w'.]* ?\{)\s*$", before):
        return True
    return bool(re.search(r"\n +pub $", before) and re.match(r" :", behind))


def edit(tree, path, text):
    """An edit of a must-fail, promises or wrong-bodies folder: its code is turned as that of the file that it names."""
    crate = path.rsplit("/", 2)[0]
    out, at = [], None
    for piece in re.split(r"(?m)^(?=file: )", text):
        named = re.match(r"file: (\S+)", piece)
        if named:
            at = f"{crate}/{named.group(1)}"
            piece = piece.replace(named.group(1), tree.place(at)[len(crate) + 1:], 1)
        head, line, rest = piece.partition("\n")
        out.append(head + line + (tree.turned(at, rest, tree.new.get(at, "")) if at else rest))
    return "".join(out)


def page(tree, path, text):
    """A page: names and files between backticks, by the crate that stands before them."""
    rules, out = tree.rules, []
    section = rules.pages.get(path, "")
    known = {crate for crate, _ in rules.names} | set(rules.words) | {p[0] for p in rules.modules}
    for line in text.split("\n"):
        named = [c for c in re.findall(r"\biox_\w+|\biceoryx2_\w+", line) if rules.of(c) in known]
        if line.startswith("#"):
            section = named[0] if named else rules.pages.get(path, "")
        crate = rules.of(named[0] if named else section)

        def one(word):
            base, inside, at = word.group(0), word.string, word.start()
            if inside[:at].endswith(("/", "crates/")) or inside[word.end():].startswith((".antt", "/")):
                return base
            for own, old, new in rules.locals:
                if crate and own == crate and old == base:
                    return new
            if crate and rules.named(crate, base) != base:
                return rules.named(crate, base)
            if base not in rules.olds and not rules.parts.search(base):
                return base
            makers = tree.makers(base)
            return rules.named(min(makers), base) if len(makers) == 1 else base

        def span(found):
            inside = found.group(0)
            if re.fullmatch(r"`\w+\.antt`", inside):
                return f"`{rules.module(crate, 'specs', inside[1:-6])}.antt`"
            return re.sub(ID, one, inside)
        line = re.sub(r"\b(\w+)/(specs|proofs)/(\w+)\.antt", lambda f: "{}/{}/{}.antt".format(
            f.group(1), f.group(2), rules.module(f.group(1), f.group(2), f.group(3))), line)
        out.append(re.sub(r"`[^`]+`", span, line))
    text = "\n".join(out)
    for old, new in rules.prose.get(path, []):
        text = text.replace(old, new)
    return text
