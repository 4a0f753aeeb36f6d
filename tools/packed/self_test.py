"""Tries the tool on a tiny crate whose verdicts are known."""
import contextlib
import io
import os
import shutil
import tempfile

from packed.checkout import try_checkout
from packed.said import REFUSED, UNTOLD, WEAK, rows_of, verdict

TINY = """//! Two functions, and two types of one name.
#![tactic(auto)]
ghost use Rattle.std.specs.Prelude.{◌≤◌, ◌+◌, ◌≡◌};

pub fn smaller(a: u8, b: u8) -> u8
    ensures first { result ≤ a }
    ensures second { result ≤ b }
{
    if a < b { a } else { b }
}

pub fn above(a: u8, b: u8) -> u8
    ensures first { result ≤ a + 1 }
    ensures second { result ≤ b + 1 }
{
    let least = smaller(a, b);
    if least < 255 { least + 1 } else { least }
}

pub mod near {
    pub struct Part<T> {
        pub near: T,
    }

    impl Part<u8> {
        pub fn value(&self) -> u8
            ensures { result ≡ self.now.near }
        {
            self.near
        }
    }
}

pub mod far {
    pub struct Part {
        pub far: u8,
    }

    impl Part {
        pub fn value(&self) -> u8
            ensures { result ≡ self.now.far }
        {
            self.far
        }
    }
}
"""
# What each edit puts in the place of what, and how its line begins.
EDITS = {
    "1_wrong": ("if a < b { a }", "if a < b { b }", "refused tiny::smaller: "),
    "2_wrong_above_it": ("{ least + 1 }", "{ a }", "refused tiny::above: "),
    "3_no_rust": ("else { b }", "else { bb }", "not judged: "),
    "4_right": ("if least < 255 {", "if 254 >= least {", "PROVED (survives)"),
    "5_does_not_apply": ("if least < 256 {", "if 254 >= least {", "not judged: "),
    "6_wrong_namesake": ("self.near", "self.near / 2", "refused tiny::near::Part+u8::value: "),
}
# What a check prints of a function, and the verdict on it.
GAVE_UP = "note: src/lib.rt:3:5: it is not proved that it holds (`returns`); `search` gave up at one of its limits\n"
FALSE = "note: src/lib.rt:4:5: it is not proved that it holds (`first`); the facts known there allow values at which this goal is false\n"
NAME = "./proofs/f/Answers.antt:1:1: error: `first`: module `Rattle.tiny.proofs.f.Goals`\n  has no `first` that can be named from here\n"
UNFIT = "./proofs/f/Answers.antt:1:1: error: `first`: expected type `A`, but this has type `B`\n"
ROW = "fn tiny::f: no proof: `search` did not prove it\n"
PRINTED = {GAVE_UP + ROW: WEAK, GAVE_UP + FALSE + ROW: REFUSED, UNFIT + GAVE_UP + ROW: REFUSED, NAME + GAVE_UP + ROW: WEAK, NAME + ROW: UNTOLD}


def self_test(kit):
    """Tries the edits of the tiny crate, and returns the status."""
    misread = [said for said, wanted in PRINTED.items() if verdict(rows_of(said)["tiny::f"].goals)[0] != wanted]
    if misread:
        print(f"{misread[0]}self-test FAILED: this is judged another way than is wanted")
        return 1
    root = f"{tempfile.gettempdir()}/tiny"
    texts = {"crates.txt": "tiny:\n", "crates/tiny/src/lib.rt": TINY}
    for name, (old, new, _) in EDITS.items():
        texts[f"crates/tiny/wrong-bodies/{name}.edit"] = f"file: src/lib.rt\nold: {old}\nnew: {new}\n"
    for path, text in texts.items():
        os.makedirs(os.path.dirname(f"{root}/{path}"), exist_ok=True)
        with open(f"{root}/{path}", "w", encoding="utf-8") as it:
            it.write(text)
    # All of them, then those alone of which each is of one body, and then those that compile, as after rt ci.
    is_well, left = True, [*EDITS]
    for without in ("", "5_does_not_apply", "3_no_rust"):
        if without:
            left.remove(without)
            os.remove(f"{root}/crates/tiny/wrong-bodies/{without}.edit")
        if without == "3_no_rust":
            os.makedirs(f"{root}/crates/tiny/out/rlib")
            open(f"{root}/crates/tiny/out/rlib/format", "w").close()
        is_well = is_as_wanted(kit, root, {it: EDITS[it][2] for it in left}) and is_well
    # The same with no time.
    is_well = is_as_wanted(kit, root, dict.fromkeys(left, "not tried: "), minutes=0) and is_well
    print("self-test ok" if is_well else "self-test FAILED: these are not the verdicts that are wanted")
    return 0 if is_well else 1


def is_as_wanted(kit, root, edits, minutes=float("inf")):
    """Tries the edits of the tiny crate that are left, and returns whether their verdicts are those that are wanted."""
    shutil.rmtree(f"{tempfile.gettempdir()}/repository", ignore_errors=True)
    with contextlib.redirect_stdout(io.StringIO()) as said:
        status = try_checkout(kit, root, [], "wrong-bodies", 1, False, minutes)
    passing, late = (sum(it.startswith(word) for it in edits.values()) for word in ("refused", "not tried"))
    failing = len(edits) - passing - late
    last = f"{passing} passed, {failing} failed{f', {late} skipped' if late else ''}"
    wanted = [*(f"tiny/{name}: {verdict}" for name, verdict in edits.items()), last]
    lines = said.getvalue().splitlines()
    print("\n".join(lines))
    return status == (failing > 0) and len(lines) == len(wanted) and all(a.startswith(b) for a, b in zip(lines, wanted))
