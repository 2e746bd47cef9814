"""What a cut of power or a failed call leaves of a node's file: for tools/live disk.

A session of a node is recorded by strace: each call that opens, writes, syncs, truncates, renames or removes. A cut after
any of these calls leaves: of each file what was synced, and of the writes since then any sectors, each old, new or torn; of
the names what was synced with their folder, and of the renames since then any first ones. Over what is left a node is
started, and its log must begin with what was written when an answer last called records forced.

A failed call is made by strace too: each call of the session on the node's files or its answers fails once, and the node
must end with a sentence and status 4, or go on, and what it answered must be there at its next start.
"""
import os
import random
import re
import shutil
import subprocess
from pathlib import Path

CALLS = "openat,creat,pwrite64,write,pwritev,writev,fdatasync,fsync,ftruncate,rename,renameat,renameat2,unlink,unlinkat," \
    "link,linkat,close,dup"
SECTOR = 512
CALL = re.compile(r"^(?:\d+ +)?(\w+)\((.*)\) += (-?\d+)")
TEXT = re.compile(r'"((?:\\x[0-9a-f]{2})*)"(?:\.\.\.)?')
FAILURES = {"openat": ["EIO", "ENOSPC"], "pwrite64": ["EIO", "ENOSPC", "EINTR"], "pwritev": ["EIO", "EINTR"],
            "write": ["EIO", "EINTR"], "writev": ["EIO"], "fdatasync": ["EIO", "EINTR"], "fsync": ["EIO", "EINTR"],
            "ftruncate": ["EIO", "EINTR"], "rename": ["EIO", "ENOSPC"], "renameat": ["EIO"], "renameat2": ["EIO"]}


class Wrong(Exception):
    pass


def root_lines(boot, count):
    """Transactions of a root, each with its child's answers."""
    lines, message = [], 1
    for number in range(1, count + 1):
        kind = "ac"[number % 2]
        txn, ticket = f"{kind}{boot}.{number}", f"4.{boot}.{number}"
        lines += [f"begin p{kind}", f"join {txn} 4", f"{message} 4->1 JOINED {txn} {ticket}", f"commit {txn}",
                  f"{message} 4->1 YES {txn}@{ticket}"]
        if kind == "a" and number % 4 == 0:
            lines.append(f"{message} 4->1 ACK {txn}@{ticket} commit")
        if number % 5 == 0:
            lines.append("trim")
        message += 1
    return lines


def manager_lines(boot, count):
    """Branches of a manager, some of which are told their outcome."""
    lines = []
    for number in range(1, count + 1):
        kind = "ac"[number % 2]
        txn = f"{kind}{boot}.{number}"
        case = f"{txn}@4.{boot}.{number}"
        lines += [f"1 1->4 JOIN {txn}", f"1 1->4 WORK {case} 1 put k{boot}x{number} v", f"1 1->4 PREPARE {case} 1"]
        if number % 3:
            lines.append(f"1 1->4 {'COMMIT' if number % 3 == 1 else 'ABORT'} {case}")
        if number % 4 == 0:
            lines.append("trim")
    return lines


def texts_of(words):
    return [bytes.fromhex(text.replace("\\x", "")) for text in TEXT.findall(words)]


class File:
    def __init__(self):
        self.now, self.safe, self.waiting = bytearray(), b"", []

    def write(self, at, data):
        if len(self.now) < at + len(data):
            self.now.extend(bytes(at + len(data) - len(self.now)))
        self.now[at:at + len(data)] = data
        self.waiting.append((at, bytes(data)))

    def truncate(self, size):
        del self.now[size:]
        self.now.extend(bytes(size - len(self.now)))
        self.waiting.append((size, None))

    def sync(self):
        self.safe, self.waiting = bytes(self.now), []

    def left(self, chance):
        """What a cut leaves of it: what is safe, and any sectors of what was written since, old, new or torn."""
        data, share = bytearray(self.safe), chance.choice([0, 0.3, 0.7, 1])
        for at, text in self.waiting:
            if text is None:
                if chance.random() < share:
                    del data[at:]
                    data.extend(bytes(at - len(data)))
                continue
            for first in range(at - at % SECTOR, at + len(text), SECTOR):
                begin, end = max(first, at), min(first + SECTOR, at + len(text))
                if chance.random() >= share:
                    continue
                if chance.random() < 0.1:
                    end = chance.randrange(begin, end + 1)
                if len(data) < end:
                    data.extend(bytes(end - len(data)))
                data[begin:end] = text[begin - at:end - at]
        return bytes(data)


class Disk:
    """The files of one folder, by the calls that were recorded."""

    def __init__(self, folder, log_in):
        self.folder, self.log_in = str(folder), log_in
        self.names, self.safe_names, self.moves = {}, {}, []
        self.open, self.at, self.kept, self.answered, self.changes = {}, {}, [b""], False, False

    def own(self, path):
        path = os.path.normpath(os.path.join(self.folder, path.decode(errors="replace")))
        return os.path.basename(path) if os.path.dirname(path) == self.folder else None

    def log(self, name):
        file = self.names.get(name)
        return self.log_in(bytes(file.now)) if file is not None else b""

    def move(self, made):
        made(self.names)
        self.moves.append(made)

    def call(self, name, words, result, watched):
        """Makes a call. What was written when an answer calls records forced is what a later start has to find, or what a
        replace after it put there."""
        self.changes = False
        if result < 0:
            return
        texts = texts_of(words)
        numbers = words.split(", ")
        number = int(numbers[0]) if numbers[0].isdigit() else None
        if name in ("openat", "creat"):
            if "O_DIRECTORY" in words or os.path.normpath(texts[0].decode(errors="replace")) in (self.folder, "."):
                self.open[result] = "folder"
                return
            own = self.own(texts[0])
            if own is None:
                self.open.pop(result, None)
                return
            if own not in self.names:
                self.changes = True
                file = File()
                self.move(lambda names, own=own, file=file: names.__setitem__(own, file))
            self.open[result], self.at[result] = self.names[own], 0
            if "O_TRUNC" in words:
                self.changes = True
                self.names[own].truncate(0)
        elif name == "close":
            self.open.pop(number, None)
        elif number == 1 and name in ("write", "writev"):
            self.answered = self.changes = True
            # what an answer calls forced, and what a trim left, is all that was written by then
            if b" forced\n" in b"".join(texts) or b"trim " in b"".join(texts):
                self.kept = [self.log(watched)]
        elif name in ("write", "pwrite64", "pwritev", "writev") and isinstance(self.open.get(number), File):
            self.changes = True
            data = b"".join(texts)[:result]
            place = self.at[number] if name in ("write", "writev") else int(numbers[-1])
            self.open[number].write(place, data)
            if name in ("write", "writev"):
                self.at[number] = place + result
        elif name == "ftruncate" and isinstance(self.open.get(number), File):
            self.changes = True
            self.open[number].truncate(int(numbers[-1]))
        elif name in ("fdatasync", "fsync"):
            self.changes = True
            if self.open.get(number) == "folder":
                self.safe_names, self.moves = dict(self.names), []
            elif isinstance(self.open.get(number), File):
                self.open[number].sync()
        elif name.startswith("rename"):
            self.changes = True
            old, new = (self.own(text) for text in texts[:2])
            if old in self.names:
                self.move(lambda names, old=old, new=new: names.__setitem__(new, names.pop(old)) if old in names else None)
            if new == watched:
                self.kept.append(self.log(watched))
        elif name.startswith("unlink"):
            self.changes = True
            own = self.own(texts[0])
            self.move(lambda names, own=own: names.pop(own, None))

    def cut(self, chance):
        """Names and files as a cut of power leaves them."""
        names = dict(self.safe_names)
        for made in self.moves[:chance.randrange(len(self.moves) + 1)]:
            made(names)
        return {name: file.left(chance) for name, file in names.items()}


def record(command, room, lines, words):
    """One life of a node under strace, and its calls."""
    trace = room / "calls"
    done = subprocess.run(["strace", "-f", "-xx", "-s", "100000000", "-o", str(trace), "-e", f"trace={CALLS}", *command, *words],
                          input="".join(line + "\n" for line in lines).encode(), stdout=subprocess.PIPE, check=False)
    if done.returncode != 0:
        raise Wrong(f"the session ends with status {done.returncode}")
    calls = []
    for line in trace.read_text().splitlines():
        found = CALL.match(line)
        if found:
            calls.append((found[1], found[2], int(found[3])))
    trace.unlink()
    return calls


def session_of(command_of, room, number, count):
    """Three lives of a node over one log."""
    calls = []
    lines_of = root_lines if number == 1 else manager_lines
    for boot in (1, 2, 3):
        calls.append(record(command_of(number), room, lines_of(boot, count), ["--new"] if boot == 1 else []))
    return calls


def start_over(command, files, folder, was_answered):
    """Starts a node over these files, and gives what it made of them; with --new, where nothing was answered yet."""
    for name, data in files.items():
        (folder / name).write_bytes(data)
    log = Path(command[-1]).name
    words = [] if log in files or was_answered else ["--new"]
    return subprocess.run([*command, *words], input=b"", stdout=subprocess.PIPE, stderr=subprocess.PIPE, check=False)


def places_in(lives, disk, watched):
    """How many calls of these lives change a file or answer."""
    count = 0
    for calls in lives:
        disk.open, disk.at = {}, {}
        for name, words, result in calls:
            disk.call(name, words, result, watched)
            count += disk.changes
    return count


def cuts(command_of, room, folder, starts, seed, log_in, count=10):
    """Starts nodes over what cuts leave, N of each session's."""
    chance, begun, tried, torn = random.Random(seed), 0, 0, 0
    for number in (1, 4):
        watched = f"{number}.log"
        (room / watched).unlink(missing_ok=True)
        lives = session_of(command_of, room, number, count)
        disk = Disk(room, log_in)
        each = max(1, starts // 2 // max(1, places_in(lives, Disk(room, log_in), watched)))
        for calls in lives:
            # a program that ended has let its files go
            disk.open, disk.at = {}, {}
            for name, words, result in calls:
                disk.call(name, words, result, watched)
                for _ in range(each if disk.changes else 0):
                    files = disk.cut(chance)
                    for old in folder.iterdir():
                        old.unlink()
                    done = start_over(command_of(number, folder), files, folder, disk.answered)
                    tried += 1
                    torn += any(files.get(name) != bytes(file.safe) for name, file in disk.safe_names.items())
                    if done.returncode != 0 and log_of(files, watched) is None and not disk.answered:
                        begun += 1
                        continue
                    if done.returncode != 0:
                        keep(files, folder)
                        raise Wrong(f"node {number}, after {name}({words[:60]}): status {done.returncode}, "
                                    f"{done.stderr.decode()!r}; {folder}")
                    found = log_in((folder / watched).read_bytes())
                    if not any(found.startswith(safe) for safe in disk.kept):
                        keep(files, folder)
                        raise Wrong(f"node {number}, after {name}({words[:60]}): what was safe is not there; {folder}")
    print(f"{tried} starts over what cuts of power left, {torn} of them with unsynced writes; each found what was safe")
    return tried


def log_of(files, watched):
    return files.get(watched)


def keep(files, folder):
    """Puts the files back as the cut left them, to be looked at."""
    for name, data in files.items():
        (folder / f"{name}.cut").write_bytes(data)


def told_in(text):
    """The transactions that were told, by what."""
    return {line.split()[1]: line.split()[2] for line in text.splitlines() if line.startswith("told ")}


def trimmed(trace):
    """Whether a trim put its file in the log's place: a rename after the first answer. Its own answer may have failed since."""
    answered = False
    for line in trace.read_text().splitlines():
        found = CALL.match(line)
        answered |= bool(found) and found[1] in ("write", "writev") and found[2].startswith("1, ")
        if answered and found and found[1].startswith("rename") and int(found[3]) == 0:
            return True
    return False


def failures(command_of, room):
    """Each call of a session on the node's files or its answers fails once."""
    lines = root_lines(1, 6)
    log, trace = room / "1.log", room / "calls"
    log.unlink(missing_ok=True)
    session = record(command_of(1), room, lines, ["--new"])
    seen, tried, ended = {}, 0, 0
    wanted = []
    names = {}
    for name, words, result in session:
        seen[name] = seen.get(name, 0) + 1
        texts = texts_of(words)
        number = words.split(", ")[0]
        if name in ("openat", "creat"):
            here = str(room) in texts[0].decode(errors="replace") and b"tree.toml" not in texts[0]
            names[str(result)] = here
        elif name.startswith("rename"):
            here = True
        else:
            here = names.get(number, False) or number == "1"
        if here and name in FAILURES:
            wanted += [(name, seen[name], error) for error in FAILURES[name]]
    for name, number, error in wanted:
        for old in room.glob("1.log*"):
            old.unlink()
        done = subprocess.run(["strace", "-f", "-o", str(trace), "-e", f"trace={CALLS}",
                               "-e", f"inject={name}:error={error}:when={number}", *command_of(1), "--new"],
                              input="".join(line + "\n" for line in lines).encode(), stdout=subprocess.PIPE,
                              stderr=subprocess.PIPE, check=False)
        tried += 1
        text = done.stdout.decode()
        place = f"{name} number {number} answers {error}"
        if done.returncode not in (0, 4) or (done.returncode == 4 and not done.stderr.startswith(b"rstar node: ")):
            raise Wrong(f"{place}: status {done.returncode}, {done.stderr.decode()!r}")
        ended += done.returncode == 4
        told = told_in(text)
        again = subprocess.run([*command_of(1), *([] if log.exists() else ["--new"])],
                               input="".join(f"outcome {txn}\n" for txn in told).encode(), stdout=subprocess.PIPE,
                               stderr=subprocess.PIPE, check=False)
        if again.returncode != 0:
            raise Wrong(f"{place}, and the next start: status {again.returncode}, {again.stderr.decode()!r}")
        for txn, end in told.items():
            known = [line for line in again.stdout.decode().splitlines() if line.startswith(f"outcome {txn} ")]
            if known not in ([f"outcome {txn} {end}"], [f"outcome {txn} unknown"]) or \
                    (known == [f"outcome {txn} unknown"] and end == "committed" and not trimmed(trace)):
                raise Wrong(f"{place}: {txn} was told {end}, and then {known}")
    print(f"{tried} failed calls: the node ended at {ended} of them, and what it had told was there each time")
    return tried


def disk(program, room, tree, starts, seed, log_in):
    """Both, in this folder."""
    room.mkdir(parents=True, exist_ok=True)
    (room / "tree.toml").write_text(tree)
    folder = room / "cut"
    folder.mkdir(exist_ok=True)
    os.chdir(room)

    def command_of(number, where=room):
        return [*program, "node", str(room / "tree.toml"), str(number), str(where / f"{number}.log")]

    try:
        cuts(command_of, room, folder, starts, seed, log_in)
        shutil.rmtree(folder)
        failures(command_of, room)
    except Wrong as wrong:
        print(wrong)
        return 1
    return 0
