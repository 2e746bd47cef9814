"""Random trees, scripts on them, and crashes of all their processes, as the tools that run them share them. An event is proposed
from what the trace shows, and left out if the program refuses it.
"""
import re
import subprocess
from pathlib import Path

TOP = Path(__file__).resolve().parent.parent
HEADER = 5


class Wrong(Exception):
    """What was found wrong, and the script under which it was."""


class Program:
    def __init__(self, path):
        self.path = path

    def run(self, words, text):
        done = subprocess.run([self.path, *words], input=text, text=True, capture_output=True)
        return done.returncode, done.stdout


def random_tree(dice):
    """A root, up to three coordinators below one another or beside, and up to four managers: id, kind and parent of each."""
    coordinators = [(1, "coordinator", None)]
    for number in range(2, 2 + dice.randint(0, 3)):
        coordinators.append((number, "coordinator", dice.choice(coordinators)[0]))
    first = len(coordinators) + 1
    managers = [(number, "manager", dice.choice(coordinators)[0]) for number in range(first, first + dice.randint(1, 4))]
    return coordinators + managers


def tree_text(tree):
    lines = []
    for number, kind, parent in tree:
        lines += ["[[process]]", f"id = {number}", f'kind = "{kind}"']
        lines += [f"parent = {parent}"] if parent else []
    return "".join(line + "\n" for line in lines) + "---\n"


def tree_of(text):
    """The tree of a text that `tree_text` or the program wrote."""
    tree = []
    for table in text.split("[[process]]")[1:]:
        number = int(re.search(r"id = (\d+)", table)[1])
        parent = re.search(r"parent = (\d+)", table)
        tree.append((number, re.search(r'kind = "(\w+)"', table)[1], int(parent[1]) if parent else None))
    return tree


class Part:
    """One program's part of a chain: its tree, the logs that it opened over, its events, and what it wrote."""

    def __init__(self, program, tree, logs):
        self.program, self.tree, self.logs, self.events = program, tree, logs, []
        self.status, self.trace = self.run([])
        if self.status != 0:
            raise Wrong(f"a part is refused: {self.trace!r}", self.script())
        self.begins_with_restarts()

    def script(self, events=None):
        lines = [f"log {number} {text}".rstrip() for number, text in self.logs.items()]
        return tree_text(self.tree) + "".join(line + "\n" for line in lines + (self.events if events is None else events))

    def run(self, words, events=None):
        return self.program.run(["tree", *words], self.script(events))

    def begins_with_restarts(self):
        opened = [int(words[1]) for words in map(str.split, self.trace.splitlines()) if words[0] == "log" and words[2] == "Opened"]
        if opened != [number for number, _, _ in self.tree]:
            raise Wrong(f"the first steps are {opened}", self.script())

    def tries(self, event):
        """Makes an event, unless it is refused."""
        status, trace = self.run([], self.events + [event])
        if status == 0:
            self.events.append(event)
            self.trace = trace
        elif status != 2:
            raise Wrong(f"status {status}: {trace!r}", self.script(self.events + [event]))
        return status == 0

    def told(self):
        return [(words[1], words[2]) for words in map(str.split, self.trace.splitlines()) if words[0] == "told" and len(words) > 2]

    def left(self):
        """The logs that it leaves, as hexadecimal."""
        status, text = self.run(["--logs"])
        if status != 0:
            raise Wrong(f"--logs ends with status {status}", self.script())
        return logs_in(text)

    def unforced(self):
        """How many records after its forced front each process's log has."""
        counts = {number: 0 for number, _, _ in self.tree}
        for words in map(str.split, self.trace.splitlines()):
            if words[0] == "log":
                counts[int(words[1])] = 0 if words[-1] == "forced" else counts[int(words[1])] + 1
            elif words[0] == "trim":
                counts[int(words[1])] = 0
        return counts


def logs_in(text):
    logs = {}
    for line in text.partition("---\n")[2].splitlines():
        _, number, *text = line.split(" ")
        logs[int(number)] = text[0] if text else ""
    return logs


def frames(text):
    """The places at which the records of a log of the second format begin, and where the last ends."""
    places, at = [], HEADER
    raw = bytes.fromhex(text)
    while at + 5 <= len(raw):
        places.append(at)
        at += 5 + int.from_bytes(raw[at + 1:at + 5], "big")
    return places + [at]


def cut(dice, part):
    """The logs, of each the forced front and a part of what is after it."""
    left, unforced = {}, part.unforced()
    for number, text in part.left().items():
        places = frames(text)
        front = places[len(places) - 1 - unforced[number]]
        keep = dice.choice([front, len(text) // 2, dice.randint(front, len(text) // 2)])
        left[number] = text[:2 * keep]
    return left


def audit(program, tree, logs):
    """Each case with how it stands and ends, by an audit that finds no mismatch beyond an operator's."""
    text = tree_text(tree) + "".join(f"log {number} {log}".rstrip() + "\n" for number, log in logs.items())
    status, out = program.run(["audit"], text)
    if status not in (0, 3):
        raise Wrong(f"the audit ends with status {status}: {out!r}", text)
    cases = {}
    for words in map(str.split, out.splitlines()[:-1]):
        case, own, outcome = words[:3]
        if "mismatch" in words[3:] and not own.startswith("heur"):
            raise Wrong(f"{case} stands {own}, and its transaction ends by {outcome}", text)
        cases[case] = (own, outcome)
    return cases


def agrees(told, cases, script):
    """Each case of a transaction that was told an outcome ends so; if all voted read-only there is none."""
    for case, (own, outcome) in cases.items():
        said = told.get(case.split("@")[0])
        if said in ("commit", "abort") and said != outcome:
            raise Wrong(f"{case} ends by {outcome}, and {said} was told", script)


WORDS = {"committed": "commit", "aborted": "abort"}


def adds_told(told, part):
    for txn, outcome in part.told():
        outcome = WORDS.get(outcome, outcome)
        if outcome in ("commit", "abort") and told.setdefault(txn, outcome) != outcome:
            raise Wrong(f"{txn} is told {outcome} after {told[txn]}", part.script())


class Proposals:
    """Random events, by what a trace shows."""

    def __init__(self, dice, tree):
        self.dice, self.tree = dice, tree
        self.children = {}
        for number, _, parent in tree:
            self.children.setdefault(parent, []).append(number)

    def cases(self, trace, known):
        found = set(re.findall(r"[ac]\d+\.\d+(?:@\d+\.\d+\.\d+)?", trace)) | known
        return sorted(found)

    def event(self, part, known):
        dice = self.dice
        sent = sum(1 for line in part.trace.splitlines() if line[0].isdigit())
        cases = self.cases(part.trace, known)
        kind = dice.choices(["begin", "join", "work", "commit", "abort", "deliver", "settle", "restart", "trim", "heur", "forget",
                             "ask"], [8, 14, 14, 8, 2, 34, 4, 5, 3, 3, 2, 3])[0]
        if kind == "begin" or not cases:
            return f"begin p{dice.choice('ac')}"
        case = dice.choice(cases[-12:])
        at = int(case.split("@")[1].split(".")[0]) if "@" in case else 1
        child = dice.choice(self.children.get(at, [1]))
        if kind == "join":
            return f"join {case} {child}"
        if kind == "work":
            return f"work {case} {child} put k{dice.randint(1, 40)} v{dice.randint(1, 9)}"
        if kind in ("commit", "abort"):
            return f"{kind} {case.split('@')[0]}"
        if kind == "deliver":
            return f"deliver {max(1, sent - min(int(dice.expovariate(0.3)), sent))}"
        if kind == "restart":
            number = dice.choice(self.tree)[0]
            return f"restart {number}" + dice.choice(["", " 0", f" {dice.randint(1, 90)}"])
        if kind == "trim":
            return f"trim {dice.choice(self.tree)[0]}"
        if kind == "heur":
            return f"heur {case} {dice.choice(['commit', 'rollback'])}"
        return "settle" if kind == "settle" else f"{kind} {case}"


def ends(part, told):
    """Delivers everything, lets each case in doubt ask, and audits."""
    part.tries("settle")
    for case, (own, _) in audit(part.program, part.tree, part.left()).items():
        if own == "in-doubt":
            part.tries(f"ask {case}")
    part.tries("settle")
    adds_told(told, part)
    agrees(told, audit(part.program, part.tree, part.left()), part.script())
