"""Crates that became modules of one crate: carries a tree over that still has them, or cites them."""
import re

ROOTS = {
    "src": "//! Laws. Each module is there for the contracts of its functions, which have nothing to do.\n#![tactic(auto)]\n\n",
    "specs": "",
    "proofs": "",
}


def camel(module):
    return "".join(part.capitalize() for part in module.split("_"))


def joined(made, rules):
    """All texts of a tree by path, where the crates of the rules `joined OLD NEW MODULE` are modules."""
    if not rules.joined:
        return made
    named = "|".join(sorted(rules.joined, key=len, reverse=True))
    cited = re.compile(rf"\bRattle\.({named})\.(specs|proofs|src)\b(\.[A-Za-z_][\w']*)?")
    used = re.compile(rf"\b({named})::")

    def path_of(found):
        (new, module), after = rules.joined[found[1]], found[3] or ""
        is_code = found[2] != "specs" and not after[1:2].isupper()
        return f"Rattle.{new}.{found[2]}.{module if is_code else camel(module)}{after}"

    def turned(path, text):
        if path.endswith("crates.txt"):
            return listed(text, rules.joined)
        if not path.endswith((".antt", ".rt", ".edit", ".in")):
            return text
        return used.sub(lambda it: "{}::{}::".format(*rules.joined[it[1]]), cited.sub(path_of, text))
    found = {place(path, rules.joined): turned(path, text) for path, text in made.items()}
    for old, (new, module) in rules.joined.items():
        if any(path.startswith(f"crates/{old}/") for path in made):
            declare(found, new, module)
    return {path: without_line(path, text, rules.joined) for path, text in found.items()}


def place(path, joined_crates):
    """Where a file goes: a crate's root file is its module's, and all others stand in a folder of its name."""
    crate, part, rest = (path.split("/", 3)[1:] + ["", "", ""])[:3]
    if not path.startswith("crates/") or crate not in joined_crates:
        return path
    new, module = joined_crates[crate]
    if part == "src":
        return f"crates/{new}/src/{module}.rt" if rest == "lib.rt" else f"crates/{new}/src/{module}/{rest}"
    if rest == "Lib.antt":
        return f"crates/{new}/{part}/{camel(module)}.antt"
    is_of_code = part == "proofs" and "/" in rest and rest[0].islower()
    return f"crates/{new}/{part}/{module if is_of_code else camel(module)}/{rest}"


def declare(found, crate, module):
    """Declares a module in the root files of its crate."""
    for part, file, name, end in (("src", "lib.rt", module, ";"), ("specs", "Lib.antt", camel(module), ""),
                                  ("proofs", "Lib.antt", camel(module), "")):
        path, line = f"crates/{crate}/{part}/{file}", f"pub mod {name}{end}\n"
        text = found.get(path, ROOTS[part])
        found[path] = text if line in text else text + line


def without_line(path, text, joined_crates):
    """A module's file without the line that only a crate's root file has."""
    is_module = any(path == f"crates/{new}/src/{module}.rt" for new, module in joined_crates.values())
    return text.replace("#![tactic(auto)]\n\n", "").replace("#![tactic(auto)]\n", "") if is_module else text


def listed(text, joined_crates):
    """crates.txt, where a joined crate stands once, with all that its parts stand on."""
    lines, below = [], {}
    for line in text.splitlines():
        name, colon, rest = line.partition(":")
        if line.startswith("#") or not colon:
            lines.append(line)
            continue
        crate = joined_crates.get(name, (name,))[0]
        lines += [] if crate in below else [crate]
        found = below.setdefault(crate, [])
        found += [it for it in dict.fromkeys(joined_crates.get(it, (it,))[0] for it in rest.split())
                  if it not in found and it != crate]
    return "".join((f"{it}: {' '.join(below[it])}".rstrip() if it in below else it) + "\n" for it in lines)
