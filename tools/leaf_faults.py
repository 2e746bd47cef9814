#!/usr/bin/env python3
"""A leaf with a fault, for tools/live leaf to find: leaf_faults.py FAULT postgres|mariadb WORDS OF THE LEAF.. (docs/LEAVES.md)"""
import os
import sys
import time
from pathlib import Path

sys.dont_write_bytecode = True
sys.path.insert(0, str(Path(__file__).resolve().parent.parent / "leaves"))
import leaf  # noqa: E402
from leaf import Leaf  # noqa: E402

# seconds that a promise takes with the faults `slow` and `old sessions not ended`
NAP = os.environ.get("NAP", "0.4")


def yes_first(self, case, count):
    a = self.active.get(case)
    if a and a.done == count and not a.spoiled and a.wrote:
        self.say(f"YES {case}")
        time.sleep(0.003)
        self.db.prepare(self.drop(case).session, case)
        return
    honest["prepare"](self, case, count)


def ack_first(self, case, how):
    if case not in self.active and case in self.db.prepared() and not leaf.presumed(case, how):
        self.say(f"ACK {case} {how}")
        time.sleep(0.003)
        self.db.end(case, how)
        return
    honest["outcome"](self, case, how)


def alone(self):
    honest["tick"](self)
    if time.time() - getattr(self, "looked", 0) > 1:
        self.looked = time.time()
        for case in self.db.prepared():
            self.stood = getattr(self, "stood", {})
            if time.time() - self.stood.setdefault(case, time.time()) > 1:
                self.db.end(case, "abort")


def uncounted(self, case, count):
    if case in self.active:
        count = self.active[case].done
    honest["prepare"](self, case, count)


def unordered(self, case, number, words):
    if case in self.active:
        self.active[case].done = number - 1
    honest["work"](self, case, number, words)


def silent(self, text):
    honest["say"](self, text.split(" unreported")[0])


def forgetful(self, case, count):
    if case in self.active:
        honest["prepare"](self, case, count)
    else:
        self.say(f"NO {case}")


def new_ticket(self, of):
    self.tickets.pop(of, None)
    honest["join"](self, of)


def all_acks(self, case, how):
    is_at_work = case in self.active
    honest["outcome"](self, case, how)
    if leaf.presumed(case, how) and not is_at_work:
        self.say(f"ACK {case} {how}")


def same_numbers(self, of):
    boot, self.db.boot = self.db.boot, 1
    honest["join"](self, of)
    self.db.boot = boot


def unasked(self):
    self.asked = time.time()


def one_line_at_a_time(self, case, do, *words):
    """Slow, and no fault: a work that waits keeps the outcome that would free it out until the lock's time is over."""
    return do(case, *words) or ["ok"]


def slow(module, which):
    """A database whose promises take their time, as on a slow disk: no fault."""
    run, word = module.Session.run, "PREPARE TRANSACTION" if which == "postgres" else "XA END"
    nap = f"SELECT pg_sleep({NAP})\\; " if which == "postgres" else f"DO sleep({NAP}); "
    module.Session.run = lambda s, sql: run(s, sql.replace(word, nap + word) if "PREPARE" in sql else sql)
    if which == "postgres":  # the nap is a statement more of the answer
        again = module.Session.run
        module.Session.run = lambda s, sql: without_nap(again(s, sql)) if "PREPARE" in sql else again(s, sql)


def without_nap(answer):
    return answer[0], [line for line in answer[1] if line]


def unfenced(module, which):
    """What an earlier leaf has under way goes on."""
    slow(module, which)
    must, word = module.Session.must, "application_name" if which == "postgres" else "processlist"
    module.Session.must = lambda s, sql: [] if word in sql else must(s, sql)


def gone_is_done(module, which):
    database = module.Postgres if which == "postgres" else module.MariaDB
    end = database.end
    database.end = lambda self, case, how: True if (ended := end(self, case, how)) is None else ended


def unclear_is_no(module, which):
    """What is not plainly YES is NO."""
    def prepare(self, s, case):
        _, lines = s.run(f"INSERT INTO rstar_ended VALUES ('{self.gid(case)}', 'commit')\\; PREPARE TRANSACTION '{self.gid(case)}'")
        self.free.append(s)
        return lines[-1:] == ["PREPARE TRANSACTION"]

    def carefree(s, sql):
        s.p.stdin.write(sql + ";\n\\echo . :SQLSTATE\n")
        s.p.stdin.flush()
        lines = []
        while line := s.p.stdout.readline():
            if line.startswith(". "):
                return line.split()[1], lines
            lines.append(line.rstrip("\n"))
        return "gone", lines
    if which == "postgres":
        run = module.Session.run
        module.Session.run = lambda s, sql: carefree(s, sql) if "PREPARE" in sql else run(s, sql)
        module.Postgres.prepare = prepare


def method(name, wrong):
    return lambda module, which: setattr(Leaf, name, wrong)


honest = {name: getattr(Leaf, name) for name in ("prepare", "outcome", "tick", "work", "join", "question", "say")}
FAULTS = {
    "YES before PREPARE": method("prepare", yes_first),
    "numbers given twice": method("join", same_numbers),
    "abort on its own": method("tick", alone),
    "no question at start": method("question", unasked),
    "ACK before COMMIT PREPARED": method("outcome", ack_first),
    "works not counted": method("prepare", uncounted),
    "old sessions not ended": unfenced,
    "a promise forgotten": method("prepare", forgetful),
    "a repeated JOIN given a new ticket": method("join", new_ticket),
    "nothing unreported": method("say", silent),
    "presumed outcomes acknowledged": method("outcome", all_acks),
    "a missing name taken as done": gone_is_done,
    "works done again": method("work", unordered),
}
# found only if the database is killed under a PREPARE, over PostgreSQL
UNCLEAR = {"an unclear answer taken as NO": unclear_is_no}
# no faults
SOUND = {"slow": slow, "one line at a time": method("later", one_line_at_a_time)}

if __name__ == "__main__":
    FAULT, WHICH = sys.argv[1], sys.argv[2]
    del sys.argv[1:3]
    module = __import__(f"leaf_{WHICH}")
    (FAULTS | UNCLEAR | SOUND)[FAULT](module, WHICH)
    import sql
    if WHICH == "postgres":
        sql.run(__doc__, lambda a, s: module.Postgres(a.name, a.me, s, a.database, a.wait))
    else:
        sql.run(__doc__, lambda a, s: module.MariaDB(a.name, a.me, s, a.database, a.options, a.wait), ("OPTIONS", ""))
