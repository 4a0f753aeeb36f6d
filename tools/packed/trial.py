"""Tries the edits of one crate, many in one check."""
import contextlib
import heapq
import os
import re
import shutil
import tempfile
import threading
import time
from concurrent.futures import ThreadPoolExecutor

from packed import said as reads
from packed.edits import Functions
from packed.kit import tell
from packed.said import PROVED, REFUSED, UNTOLD, UNTRIED, WAITS, WEAK

FLAGS = ["--jobs", "1"]


def only(names):
    """Returns the flags of a check of these functions, and of what they call."""
    return [*FLAGS, *(word for it in sorted({*names}) for word in ("--only", it))]


class NoTime(Exception):
    """No time is left for a check."""


class Slots:
    """Lets as many checks run at a time as there are processors and memory for: first checks before others, and of these those of
    the crate with most weight. After the time until none starts."""

    def __init__(self, limit, memory, until):
        self.limit, self.memory, self.until, self.running, self.turn = limit, memory, until, 0, 0
        self.free, self.queue = threading.Condition(), []

    def left(self, grace):
        """Returns the seconds that are left, and the grace, or None where there is no end."""
        return None if self.until == float("inf") else max(0.0, self.until + grace - time.monotonic())

    @contextlib.contextmanager
    def taken(self, weight, need, is_first=False):
        with self.free:
            self.turn += 1
            mine = (not is_first, -weight, self.turn)
            heapq.heappush(self.queue, mine)
            fits = lambda: self.running < self.limit and (need <= self.memory or not self.running)
            self.free.wait_for(lambda: self.queue[0] == mine and fits())
            heapq.heappop(self.queue)
            self.free.notify_all()
            if time.monotonic() > self.until:
                raise NoTime
            self.running, self.memory = self.running + 1, self.memory - need
        try:
            yield
        finally:
            with self.free:
                self.running, self.memory = self.running - 1, self.memory + need
                self.free.notify_all()


def linked(of, to):
    """Copies a folder by hard links where it can. rattle writes each file anew and renames it, so the first one stays as it is."""
    def link(a, b):
        try:
            os.link(a, b)
        except OSError:
            shutil.copy2(a, b)

    shutil.copytree(of, to, copy_function=link)


def is_in(places, edit, file, line):
    """Whether the line is of the edit's function."""
    return places[edit][0] == file and int(line) in places[edit][1]


class Trial:
    """The trial of one crate's edits, over the work that kept holds. Where rt ci has just proved the crate (is_proved), no function is
    proved without an edit but for those that an edited one calls: rounds come one after another, each over what those before it kept."""

    def __init__(self, kit, crate, kept, edits, slots, is_proved, weight):
        self.kit, self.crate, self.kept, self.edits, self.slots, self.is_proved = kit, crate, kept, edits, slots, is_proved
        self.rounds, self.alone, self.need, self.weight = 0, 0, kit.rt.need(crate), weight
        self.functions = Functions(kit, crate)

    def check(self, texts, flags, is_first=False):
        """Checks the crate with these texts, and keeps the work. Returns what the check printed, and its status."""
        with self.slots.taken(self.weight, self.need, is_first):
            ran = self.kit.rt.checked(self.crate, texts, flags, self.kept)
        return ran.stdout, ran.returncode

    def over_copy(self, call, *given, flags=FLAGS):
        """Calls with a copy of the kept work, so that no check sees another's."""
        with self.slots.taken(self.weight, self.need), tempfile.TemporaryDirectory(prefix="try-") as folder:
            linked(self.kept, f"{folder}/kept")
            return call(self.crate, *given, flags, f"{folder}/kept")

    def begin(self, is_single):
        """Finds the edits' functions and how a check names them. Returns why nothing can be tried, or None."""
        for it in self.edits if not is_single else []:
            self.functions.place(it)
        paths = [it.function and self.functions.path_of(it.function) for it in self.edits]
        parts = only(paths) if all(paths) else None
        if parts and self.is_proved and self.try_first(parts):
            return None
        return self.check_clean(parts)

    def try_first(self, parts):
        """Tries an edit of each function in one check, whose rows name the functions. Returns whether it told them."""
        first = in_rounds(self.edits)[0]
        texts, places = self.functions.written(first)
        said, _ = self.check(texts, parts, is_first=True)
        rows = reads.rows_of(said)
        if not rows or self.functions.name(self.edits, rows, False) or self.errors(said, rows, texts) or self.strange(rows, first):
            return False
        self.rounds += 1
        for it in first:
            if all(it is other or it.goes_with(other) for other in first):
                self.judge(it, rows, places)
        return True

    def check_clean(self, parts):
        """Checks the crate as it stands: where each edit is of one body, the edited functions and what they call, and else all of it.
        Returns why nothing can be tried, or None."""
        for flags, ends in [*([(parts, r"^only=")] if parts else []), (FLAGS, r"^logic=proved ")]:
            said, status = self.check({}, flags, is_first=True)
            if status or not re.search(ends, said, re.M):
                continue
            lost = self.functions.name(self.edits, reads.rows_of(said), flags == FLAGS)
            if not lost or flags == FLAGS:
                for it in lost:
                    it.function = None
                return None
        return f"the crate itself is not proved: {' / '.join(said.rstrip().splitlines()[-3:])[:300]}"

    def errors(self, said, rows, texts):
        """Returns the places of compile errors. Beside verdicts one still shows where the prover cannot read an edited text."""
        return [it.groups() for it in map(reads.ERROR.match, said.split("\n")) if it and (not rows or self.kit.rt.unread(it.string, texts))]

    @staticmethod
    def strange(rows, edits):
        """Returns the functions that fell for goals of their own, though no edit of the round is in them."""
        edited = {symbol for it in edits for symbol in it.symbols}
        return [it for it, row in rows.items() if it not in edited and reads.FELL.match(row.words) and row.goals]

    def try_round(self, edits):
        """Checks these edits at once, and settles each as far as the check tells."""
        if not edits:
            return
        self.rounds += 1
        texts, places = self.functions.written(edits)
        flags = only(self.functions.shown(edits))
        said = self.check(texts, flags)[0] if self.is_proved else self.over_copy(self.kit.rt.checked, texts, flags=flags).stdout
        rows = reads.rows_of(said)
        errors = self.errors(said, rows, texts)
        wrong = [it for it in edits if any(is_in(places, it, *error) for error in errors)]
        for it in wrong:
            it.settle(UNTOLD, "the compiler finds an error in it")
        if wrong:
            return self.try_round([it for it in edits if it not in wrong])
        strange = self.strange(rows, edits)
        if errors or not rows or strange:
            edits[0].settle(UNTOLD, f"the round came to no verdict {strange[:1]}")
            half = len(edits) // 2
            if half:
                self.try_round(edits[:half])
                self.try_round(edits[half:])
            return
        for edit in edits:
            self.judge(edit, rows, places)

    def judge(self, edit, rows, places):
        self.settle(edit, rows, lambda goal: not goal.file or is_in(places, edit, goal.file, goal.line))

    @staticmethod
    def settle(edit, rows, is_own):
        """Settles an edit by what a round's check says of its function."""
        found = {it: rows[it] for it in edit.symbols if it in rows}
        fell = {it: row for it, row in found.items() if reads.FELL.match(row.words)}
        own = {it: [goal for goal in row.goals if is_own(goal)] for it, row in fell.items()}
        goals = [goal for row in fell.values() for goal in row.goals]
        if any(own.values()):
            best = min((goal for those in own.values() for goal in those), key=reads.rank)
            where = next(it for it, those in own.items() if best in those)
            found, text = reads.verdict([best])
            # (goals that wait for a callee's proof have not been tried, and one of them may show more)
            is_all = found == REFUSED or not reads.WAITING.search(fell[where].words)
            edit.settle(found if is_all else WAITS, text, where)
        elif found and all(row.words.startswith("proved") for row in found.values()):
            edit.settle(PROVED)
        elif fell and not goals and all(reads.WAITING.search(row.words) for row in fell.values()):
            edit.settle(WAITS)
        else:
            edit.settle(UNTOLD, next(iter(fell.values())).words if fell else "the check does not tell this function's verdict")

    def try_alone(self, edit):
        """Tries the edit by itself: that of one body in a round of its own, and by rt any other, and what such a round cannot tell."""
        self.alone += 1
        if edit.function:
            self.try_round([edit])
        if edit.function and edit.verdict not in (UNTOLD, WAITS):
            return
        refused, text, said = self.over_copy(self.kit.must_fail, edit.file)
        text = " ".join((text.partition(f"/{edit.name}.edit: ")[2] or text).split("\n"))
        if not refused:
            return edit.settle(*((PROVED,) if text.startswith("NOT REFUSED") else (UNTOLD, text)))
        found, best = reads.verdict(reads.all_goals(said))
        # (no goal is open, for example, where the borrow checker does not cover what the body does)
        edit.settle(found, best or f"rt refuses it, but no goal is open, so no contract was tried: {edit.said or text}")

    def run(self, is_single):
        """Tries all edits: in rounds, and then singly what no round refused."""
        left = [it for it in self.edits if it.function and not is_single and it.verdict in ("", WAITS)]
        with ThreadPoolExecutor(1 if self.is_proved else self.slots.limit) as pool:
            while len(left) > 1:
                rounds = in_rounds(left)
                tell(f"{self.crate.name}: {len(left)} edits in {len(rounds)} rounds")
                list(pool.map(self.in_time(self.try_round), rounds))
                waiting = [it for it in left if it.verdict == WAITS]
                left = waiting if len(waiting) < len(left) else []
            alone = [it for it in self.edits if it.verdict not in (REFUSED, WEAK, UNTRIED)]
            if alone:
                tell(f"{self.crate.name}: {len(alone)} edits singly")
            list(pool.map(self.in_time(lambda those: self.try_alone(those[0])), [[it] for it in alone]))

    @staticmethod
    def in_time(call):
        """Returns a call that settles the edits of which it tells nothing since no time is left."""

        def tried(edits):
            try:
                call(edits)
            except NoTime:
                untold(edits)

        return tried


def untold(edits):
    """Settles those of which no check has told, since no time is left, and returns all."""
    for it in edits:
        if it.verdict not in (REFUSED, WEAK):
            it.settle(UNTRIED, "no time was left")
    return edits


def in_rounds(edits):
    """Deals the edits out to rounds in which one check can tell them apart."""
    rounds = []
    for it in edits:
        fitting = next((those for those in rounds if all(map(it.goes_with, those))), None)
        if fitting is None:
            rounds.append([it])
        else:
            fitting.append(it)
    return rounds
