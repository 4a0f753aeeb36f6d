"""Loads rt, and holds it to the functions of it that the tools here call."""
import importlib.machinery
import inspect
import os
import re
import shutil
import sys
import threading
import types

# Each function of rt that is called here, with its parameters. rt may change, and then these tools have to change too.
USED = """rt.checked(crate, texts, flags, kept) rt.must_fail(crate, edit, flags, kept) rt.read_edit(edit, folder)
rt.unread(line, changed) rt.need(crate) rt.processors() rt.free() rt.rtlib.crates_below(top) rt.rtlib.lock(crates)
rt.rtlib.guarded() rt.rtlib.Crate.below(self) rt.rtlib.Crate.is_built(self) rt.rtlib.Crate.count(self, pattern)
rt.rtlib.Crate.build_rlib(self, flags, anew) bodies.Source(folder, follows) bodies.Source.read(self, file, module, tactic)
bodies.Block.fits(self, name)"""


def tell(text):
    """Says something that is no verdict."""
    print(f"wrong_bodies: {text}", file=sys.stderr, flush=True)


def stop(why):
    """Ends with status 2: nothing could be judged."""
    tell(why)
    print("0 passed, 1 failed", flush=True)
    os._exit(2)


class Kit:
    """rt itself (rt), and rt plant's reader of functions (bodies)."""

    def __init__(self):
        found = shutil.which("rt") or stop("there is no rt on the PATH")
        folder = os.path.dirname(os.path.realpath(found))
        self.other = f"the rt in {folder} is another than the one that this tool was written for"
        self.rt, self.bodies = (self.loaded(f"{folder}/{it}") for it in ("rt", "rt-plant-bodies"))
        for path, given in re.findall(r"(\S+)\((.*?)\)", USED):
            self.hold(path, given)
        self.last, self.plain = threading.local(), self.rt.checked
        self.rt.checked = self.checked

    def loaded(self, file):
        made = types.ModuleType(os.path.basename(file))
        made.__file__ = file
        try:
            importlib.machinery.SourceFileLoader(made.__name__, file).exec_module(made)
        except Exception as error:
            stop(f"{self.other}: {made.__name__} cannot be loaded ({error!r})")
        return made

    def hold(self, path, given):
        part = getattr(self, path.partition(".")[0])
        for name in path.split(".")[1:]:
            part = getattr(part, name, None)
        if not callable(part) or ", ".join(inspect.signature(part).parameters) != given:
            stop(f"{self.other}: it has no {path}({given})")

    def checked(self, *given, **named):
        """Checks as rt does, and keeps what the check printed."""
        ran = self.plain(*given, **named)
        self.last.said = ran.stdout
        return ran

    def must_fail(self, *given):
        """Asks rt's own must_fail(). Returns whether rt refuses the edit, what rt says, and what the check printed."""
        self.last.said = None
        refused, text = self.rt.must_fail(*given)
        if self.last.said is None and "BAD EDIT" not in text:
            stop(f"{self.other}: its must_fail() calls no checked()")
        return refused, text, self.last.said or ""
