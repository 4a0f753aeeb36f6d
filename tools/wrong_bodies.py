#!/usr/bin/env python3
"""Tries wrong bodies on the crates of this repository, many in one check.

usage: wrong_bodies.py [--must-fail | --dir FOLDER] [--jobs N] [--minutes N] [--turn TEXT] [--after-ci] [--single] [CRATE ..]
       wrong_bodies.py --self-test

Run it at the top of the checkout. For each crate that is named, or else for each that has any, it takes the edits
crates/CRATE/FOLDER/*.edit (FOLDER: wrong-bodies if left out; the gate tries promises, too), written as for rt must-fail. With --must-fail
it takes those of crates/CRATE/must-fail, whose weak refusals rt must-fail does not tell. The prover must refuse each, and a goal of a contract
must fall. One line is printed for each edit, and last 'N passed, M failed':

  CRATE/EDIT: refused FUNCTION: GOAL    passed: the function's own GOAL is open
  CRATE/EDIT: refused: ..               passed: the same, of an edit that was tried singly
  CRATE/EDIT: WEAK FUNCTION: GOAL       failed: the search gave up at each open goal, so they may all be true
  CRATE/EDIT: PROVED (survives)         failed: the crate is still proved with this edit, so a contract is too weak
  CRATE/EDIT: not judged: WHY           failed: it does not apply, is no Rust, is refused for no goal, or its verdict could
                                        not be told
  CRATE/EDIT: not tried: ..             skipped: no time was left (--minutes)

A GOAL ends in 'the facts known there allow values at which this goal is false' where the prover found such values. The status
is 0 if all passed, 1 if not, and 2 if nothing could be tried.

--jobs N runs N checks side by side (one a processor if left out; each takes 1 to 2 GB, and none starts that has no room).
--minutes N starts no further check after so many minutes, and ends what runs 8 minutes later. The first check of each crate comes
before all others. The last line then ends in ', K skipped'.
--turn TEXT tries the crates in an order that changes with the text, so that others come late where time runs short.
--after-ci says that rt ci has just ended here, and that what out/ has without a stamp is of that run. No library is proved then:
what stands on one that rt ci has not proved is not judged.
--single tries each edit singly, to compare.

How it works. Callers see a function by its contract alone, so an edit of one body leaves the goals of all other functions as
they were. Edits of single bodies, of different functions, are therefore written into one copy of the crate and checked at
once: a round. A function counts as refused only if a goal is open that lies in its own text, or if an answer that is written
for its proof does not fit.
  - A function that is not proved only because it calls one that fell waits for a later round, without the other's edit.
  - Where a function falls for a goal of its own and no edit of the round is in it, or where the check comes to no verdict,
    the round is halved. An edit at which the compiler finds an error leaves its round.
  - What is still proved is then tried in a round of its own, and what could not be told by rt's own must_fail().
Where each edit of a crate is of one body, the edited functions and what they call are checked, and no others.
Right after rt ci, which proved the crate, no check of it without edits comes first: the first round has an edit of each function, and
each round goes on over what those before it kept. Else the crate is checked as it stands, and rounds come side by side.
Tried singly from the start is an edit of anything but one body: of two bodies, a constant, a type, a signature, a clause, a
file of specs/ or proofs/, a test or a macro; of the body of a const fn, of one in a cycle of calls, or of one with items in it.

Nothing is written in the checkout. The work is done on a copy among the temporary files. It takes the libraries that rt ci or
rt check left in out/, and what rt check kept of the crate itself; what is lacking is proved in the copy, and lost with it. The
tool stands on functions of rt that need not stay (USED in packed/kit.py lists them): it stops with status 2 if they have
changed. After any change here, run --self-test.
"""
import argparse
import os
import shutil
import signal
import subprocess
import sys
import tempfile

sys.dont_write_bytecode = True

from packed.checkout import try_checkout
from packed.kit import Kit
from packed.self_test import self_test


def guard(kit):
    """However this process ends, its checks end with it, and the copy is removed: each by a shell that waits for it to end."""
    for it, status in ((signal.SIGINT, 130), (signal.SIGTERM, 143), (signal.SIGHUP, 129)):
        signal.signal(it, lambda *_, status=status: os._exit(status))
    kit.rt.rtlib.guarded()
    tempfile.tempdir = tempfile.mkdtemp(prefix="wrong-bodies-")
    remove, quiet = ["sh", "-c", 'read _; sleep 1; rm -rf "$0"', tempfile.tempdir], subprocess.DEVNULL
    subprocess.Popen(remove, stdin=os.pipe()[0], stdout=quiet, stderr=quiet, start_new_session=True)


def main():
    words = argparse.ArgumentParser(usage=__doc__.split("usage: ", 1)[1])
    words.add_argument("--dir", default="wrong-bodies")
    words.add_argument("--must-fail", dest="dir", action="store_const", const="must-fail")
    words.add_argument("--jobs", type=int, default=0)
    words.add_argument("--minutes", type=float, default=float("inf"))
    words.add_argument("--turn", default="")
    words.add_argument("--after-ci", action="store_true")
    words.add_argument("--single", action="store_true")
    words.add_argument("--self-test", action="store_true")
    words.add_argument("crates", nargs="*")
    given, kit = words.parse_args(), Kit()
    guard(kit)
    try:
        if given.self_test:
            return self_test(kit)
        how = (given.dir, given.jobs, given.single, given.minutes, given.turn, given.after_ci)
        return try_checkout(kit, os.getcwd(), given.crates, *how)
    finally:
        shutil.rmtree(tempfile.tempdir, ignore_errors=True)


if __name__ == "__main__":
    sys.exit(main())
