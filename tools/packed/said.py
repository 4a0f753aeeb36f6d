"""Reads what a check prints: each function's verdict, and its open goals."""
import collections
import re

REFUSED, WEAK, PROVED, UNTOLD, WAITS, UNTRIED = "refused", "WEAK", "PROVED (survives)", "not judged", "waits", "not tried"
# A line for each item. The item's open goals stand above it.
ROW = re.compile(r"(fn|impl|struct|enum|trait) ([^\s:]+(?:::[^\s:]+)+): (.*)")
FELL = re.compile(r"not proved|no proof")
# (where a function fell only for another one that it calls, or that is in its cycle)
WAITING = re.compile(r"it (calls|waits|passes)")
GOAL = re.compile(r"note: (?:\./)?(src/\S+\.rt):(\d+):\d+: (.* \(`\S+`\).*)")
ERROR = re.compile(r"(?:\./)?(src/\S+\.rt):(\d+):\d+: error")
# An error in a file of proofs/ or specs/, with the line below that goes on with it, if one does.
BELOW = re.compile(r"(?m)^(?:\./)?((?:proofs|specs)/\S+\.antt):(\d+):\d+: error: (.*(?:\n  .*)?)")
ANSWERS = re.compile(r"proofs/(\S+)/(?:Answers|Invariants|Proof)\.antt")
# One that only names what the edit took away says little of a contract.
NAMES = re.compile(r"has no field|is not in scope|has no `|was not admitted")

# A goal that is open: where it stands, and what the check says of it. What has no line stands in no text of src/.
Goal = collections.namedtuple("Goal", "file line text")
# What a check says of a function, and its own open goals.
Row = collections.namedtuple("Row", "words goals")


def rank(goal):
    """Orders goals by how much they show: a goal that is false at some values, one with no proof, an answer that does not fit, and
    last one at which the search gave up, which may be true."""
    if "gave up" in goal.text:
        return 3
    return 2 if not goal.line else 0 if "allow values" in goal.text else 1


def verdict(goals):
    """Judges an edit by the goals that it leaves open."""
    if not goals:
        return UNTOLD, ""
    best = min(goals, key=rank)
    return (WEAK if rank(best) == 3 else REFUSED), best.text


def errors_below(said):
    """Returns the file, line and words of each error in a file of proofs/ or specs/, but for those that only name what is gone."""
    found = ((file, at, " ".join(text.split())) for file, at, text in BELOW.findall(said))
    return [it for it in found if not NAMES.search(it[2])]


def rows_of(said):
    """Returns a Row for each function."""
    rows, goals, unfit = {}, [], {}
    for file, _, text in errors_below(said):
        folder = ANSWERS.fullmatch(file)
        if folder:
            unfit.setdefault(folder[1], []).append(Goal("", 0, f"an answer of its proof does not fit: {text}"))
    for line in said.split("\n"):
        goals += [Goal(file, int(at), text) for file, at, text in GOAL.findall(line)]
        row = ROW.match(line)
        if row and row[1] == "fn":
            rows[row[2]] = Row(row[3], goals + unfit.get("/".join(row[2].split("::")[1:]), []))
        goals = [] if row else goals
    return rows


def all_goals(said):
    """Returns all that is open in the crate, of whatever function or law."""
    goals = [Goal(file, int(at), f"{file}:{at}: {text}") for file, at, text in GOAL.findall(said)]
    return goals + [Goal("", 0, f"{file}:{at}: {text}") for file, at, text in errors_below(said)]
