"""Copies a checkout, finds or builds its libraries, and tries the edits of all its crates side by side."""
import hashlib
import io
import os
import re
import resource
import shutil
import tempfile
import threading
import time
import types
from concurrent.futures import ThreadPoolExecutor, wait

from packed.edits import Edit
from packed.kit import stop, tell
from packed.said import REFUSED, UNTOLD, UNTRIED
from packed.trial import FLAGS, NoTime, Slots, Trial, linked, untold

# A check that still runs so many seconds after the time for the last start is ended.
GRACE = 480

# How an edit's file is named, as rt wants it of those in must-fail/. A .md file beside them is only to be read.
NAME = re.compile(r"[A-Za-z0-9_-][A-Za-z0-9_.-]*\.edit")


def processor():
    """Returns the processor time of all checks so far, in seconds."""
    return sum(resource.getrusage(resource.RUSAGE_CHILDREN)[:2])


def skipped(late):
    return f", {late} skipped" if late else ""


def times(folder, parts):
    """Returns the times of the files below these parts of a folder."""
    files = [f"{at}/{it}" for part in parts for at, _, names in os.walk(f"{folder}/{part}") for it in names]
    return [os.lstat(it).st_mtime for it in files]


def named_in(page):
    """Returns the files of the edits that the page names, between two * each. The first round has an edit of each function, so they come early."""
    if not os.path.isfile(page):
        return set()
    with open(page, encoding="utf-8") as it:
        return {f"{name.replace(' ', '_')}.edit" for name in re.findall(r"\*([^*\n]+)\*", it.read())}


class Checkout:
    """A copy of the checkout in which all is tried, so that nothing is written in the checkout itself."""

    def __init__(self, kit, root, folder, slots, chance, is_after_ci=False):
        self.kit, self.root, self.folder, self.slots, self.chance, self.is_after_ci = kit, root, folder, slots, chance, is_after_ci
        self.printing, self.ended = threading.Lock(), set()
        if not os.path.isfile(f"{root}/crates.txt") or not os.path.isdir(f"{root}/crates"):
            stop("run it at the top of a repository, where crates.txt and crates/ stand")
        top = f"{tempfile.gettempdir()}/repository"
        leaves_out = lambda at, _: ["out"] if os.path.dirname(at) == f"{root}/crates" else []
        shutil.copytree(f"{root}/crates", f"{top}/crates", ignore=leaves_out)
        shutil.copy(f"{root}/crates.txt", top)
        self.crates = {it.name: it for it in kit.rt.rtlib.crates_below(top)}
        self.named = named_in(f"{root}/docs/WRONG_BODIES.md")
        # The crates that rt ci has just proved, where all libraries that are wanted are of it.
        self.of_ci = self.made_by_ci()

    def edits_of(self, name):
        """Returns the crate's edits, those first that the page of wrong bodies names, and the files that are none."""
        at = f"{self.crates[name].folder}/{self.folder}"
        files = sorted(os.listdir(at), key=lambda it: (it not in self.named, it)) if os.path.isdir(at) else []
        good = [it for it in files if NAME.fullmatch(it)]
        return [Edit(f"{at}/{it}") for it in good], [it for it in files if it not in good and not it.endswith(".md")]

    def link(self, crate, part):
        """Takes what out/ has of the crate."""
        of, to = f"{self.root}/crates/{crate.name}", f"{crate.folder}/out/{part}"
        if os.path.isdir(f"{of}/out/{part}") and not os.path.isdir(to):
            held = self.kit.rt.rtlib.lock([types.SimpleNamespace(folder=of)])
            linked(f"{of}/out/{part}", to)
            any(map(os.close, held))

    def made_by_ci(self):
        """Returns the crates that out/ holds as rt ci makes libraries: with no stamp, and each newer than its text and the libraries
        below. Where rt ci is told to have just ended here, no time is compared: a library that it kept of an earlier run is older."""
        newest = {}
        for it in sorted(self.crates.values(), key=lambda it: len(it.below())):
            at = f"{self.root}/crates/{it.name}"
            made = times(at, ["out/rlib"])
            texts = [os.lstat(f"{self.root}/crates.txt").st_mtime, *times(at, ["src", "specs", "proofs"])]
            below = [newest.get(dep.name) for dep in it.below()]
            is_of_ci = made and all(below) and not os.path.exists(f"{at}/out/rlib/stamp")
            if is_of_ci and (self.is_after_ci or min(made) >= max(texts + below)):
                newest[it.name] = max(made)
        return {*newest}

    def make_libraries(self, libraries):
        """Finds or builds the libraries. Returns, by name, why one is not there."""
        lacking = [it.name for it in libraries if it.name not in self.of_ci]
        if self.is_after_ci or not lacking:
            for it in libraries:
                self.link(it, "rlib")
            return {name: f"rt ci has not proved its library {name}" for name in lacking}
        self.of_ci = set()
        made = {}
        with ThreadPoolExecutor(len(libraries) or 1) as pool:
            for it in libraries:
                made[it.name] = pool.submit(self.make_library, it, [made[dep.name] for dep in it.below()])
            return {name: why.result() for name, why in made.items() if why.result()}

    def make_library(self, it, below):
        lacking = [why.result() for why in below if why.result()]
        if lacking:
            return lacking[0]
        self.link(it, "rlib")
        if it.is_built():
            return None
        tell(f"proving {it.name}, which out/ lacks (rt check in its folder would keep it)")
        self.link(it, "incremental")
        it.out = io.StringIO()
        try:
            with self.slots.taken(10**9, self.kit.rt.need(it)):
                status = it.build_rlib(FLAGS, anew=False)
        except NoTime:
            return f"no time was left for its library {it.name}"
        said = " / ".join(it.out.getvalue().splitlines()[-3:])[:300]
        return f"its library {it.name} is not proved: {said}" if status else None

    def weight(self, name, edits):
        """Returns how early the crate comes: those with most to do first or, where a turn is given, in an order that changes with it."""
        if self.chance:
            return int(hashlib.sha256(f"{self.chance} {name}".encode()).hexdigest()[:8], 16)
        return self.crates[name].count(rb"\n") + 300 * len(edits)

    def try_crate(self, name, edits, lost, is_single):
        """Tries the edits of one crate, prints their verdicts, and returns how many were refused, how many not, and how many were not tried."""
        start, crate = time.time(), self.crates[name]
        kept = f"{crate.folder}/out/incremental"
        trial = Trial(self.kit, crate, kept, edits, self.slots, name in self.of_ci, self.weight(name, edits))
        why = next((lost[it.name] for it in crate.below() if it.name in lost), None)
        try:
            if not why:
                self.link(crate, "incremental")
                os.makedirs(kept, exist_ok=True)
                why = trial.begin(is_single)
            if not why:
                trial.run(is_single)
        except NoTime:
            untold(edits)
        shutil.rmtree(kept, ignore_errors=True)
        for it in edits if why else []:
            it.settle(UNTOLD, why)
        with self.printing:
            self.ended.add(name)
            return self.say(name, edits, f", {trial.rounds} rounds and {trial.alone} single checks in {time.time() - start:.0f} s")

    @staticmethod
    def say(name, edits, what=""):
        """Prints the verdicts on the edits of one crate, and returns how many there are of each kind."""
        passed, late = (sum(it.verdict == wanted for it in edits) for wanted in (REFUSED, UNTRIED))
        for it in edits:
            print(f"{name}/{it.name}: {it.verdict}{' ' * bool(it.where)}{it.where}{': ' * bool(it.said)}{it.said[:300]}", flush=True)
        tell(f"{name}: {passed} passed, {len(edits) - passed - late} failed{skipped(late)}; {len(edits)} edits{what}")
        return passed, len(edits) - passed - late, late

    def try_all(self, names, is_single):
        """Tries the edits of these crates, or else of all, and returns the status."""
        if {*names} - {*self.crates}:
            stop(f"crates.txt names no crate {' '.join({*names} - {*self.crates})}")
        found = {name: self.edits_of(name) for name in names or self.crates}
        bad = [f"{name}/{self.folder}/{it}" for name, (_, others) in found.items() for it in others]
        edits = {name: those for name, (those, _) in found.items() if those}
        lacking = [it for it in names if it not in edits] or ([] if edits else ["any crate"])
        if lacking:
            stop(f"there is no edit in the folder {self.folder} of {', '.join(lacking)}")
        libraries = [it for it in self.crates.values() if any(it in self.crates[name].below() for name in edits)]
        lost = self.make_libraries(libraries)
        pool = ThreadPoolExecutor(len(edits))
        tried = {name: pool.submit(self.try_crate, name, those, lost, is_single) for name, those in edits.items()}
        wait(tried.values(), self.slots.left(GRACE))
        # (no thread prints from here on)
        self.printing.acquire()
        late = {*edits} - self.ended
        counts = [self.say(it, untold(edits[it])) if it in late else tried[it].result() for it in edits]
        for it in bad:
            print(f"{it}: not judged: an edit's name is of letters, digits, _, - and . and ends in .edit", flush=True)
        passed, failed, skips = map(sum, zip(*counts))
        tell(f"all checks took {processor() / 60:.1f} processor minutes")
        print(f"{passed} passed, {failed + len(bad)} failed{skipped(skips)}", flush=True)
        status = 1 if failed or bad else 0
        # (checks that still run end with this process)
        return os._exit(status) if late else status


def try_checkout(kit, root, names, folder, jobs, is_single, minutes=float("inf"), chance="", is_after_ci=False):
    """Tries the edits of a checkout's crates, and returns the status."""
    slots = Slots(jobs or kit.rt.processors(), 0.85 * kit.rt.free(), time.monotonic() + 60 * minutes)
    return Checkout(kit, root, folder, slots, chance, is_after_ci).try_all(names, is_single)
