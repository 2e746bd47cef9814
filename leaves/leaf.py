"""The manager's side of the protocol over any database with prepared transactions: lines in, lines out, as `rstar node` has it.
docs/LEAVES.md says what each line here owes, and why; sql.py, leaf_postgres.py and leaf_mariadb.py say what a database is.
In: the lines of HELP. Out: messages, each as soon as it is true, and after them, in the order of the lines, `ok`, `refused E`
or `error`. The lines of a case are made in order, those of several side by side: else a work that waits for a lock keeps out
the COMMIT that frees it. Status 4: start it again, it looks."""
import os, queue, re, select, signal, sys, threading, time
from concurrent.futures import Future, ThreadPoolExecutor, wait
from types import SimpleNamespace
class Gone(Exception): """It is not known what became of a statement: nothing is answered, the next start looks."""
NUMBER = r"(?:0|[1-9]\d{0,18})"
CASE = re.compile(rf"[ac]{NUMBER}\.{NUMBER}@({NUMBER})\.{NUMBER}\.{NUMBER}")
PARENT_CASE = re.compile(rf"([ac]{NUMBER}\.{NUMBER})(?:@{NUMBER}\.{NUMBER}\.{NUMBER})?")
MESSAGE = re.compile(rf"{NUMBER} ({NUMBER})->({NUMBER}) (\S+) (\S+)(?: (.*))?")
WORK = re.compile(NUMBER + r" (put [!-~]{1,64} [!-~]{1,256}|get [!-~]{1,64}|del [!-~]{1,64})")
HELP = ["N F->T MESSAGE", "doubt", "status", "heur CASE commit|rollback", "forget CASE", "help", "end"]
def presumed(case, how): return (how == "commit") == (case[0] == "c")
def active(): return SimpleNamespace(done=0, session=None, spoiled=False, wrote=False, seen=time.time())   # spoiled: votes NO
class Leaf:
    def __init__(self, database, me, parent, ask=5.0, idle=600.0, threads=64):
        # the database has raised the boot, on its disk, and has ended what an earlier leaf still had under way
        self.db, self.me, self.parent, self.ask, self.idle, self.ending = database, me, parent, ask, idle, False
        self.given, self.sent, self.active, self.tickets, self.last = 0, 0, {}, {}, {}
        self.guard, self.ends, self.pool = threading.RLock(), queue.Queue(), ThreadPoolExecutor(threads)
        self.note("Opened", database.boot); self.decided = database.decided()
        for case, how in self.decided.items(): database.end(case, how)     # it was noted, and perhaps not made
        self.question(); self.put("ok")
    def put(self, *lines): print("\n".join(lines) + "\n", end="", flush=True)      # one write: lines of two threads do not mix
    def note(self, kind, of): self.put(f"log {self.me} {kind} {of} forced")
    def say(self, text):
        with self.guard: self.sent += 1; self.put(f"{self.sent} {self.me}->{self.parent} {text}")
    def standing(self):   # also a case at work that its application has prepared itself: but ABORT is all that such a one may hear
        return sorted(case for case in self.db.prepared() if case not in self.active or case[0] == "a")
    def doubts(self): return [case for case in self.standing() if case not in self.decided]
    def question(self):
        """Of what is in doubt, and of what an operator decided and was not told its outcome, the parent is asked."""
        self.asked, standing = time.time(), self.standing()
        for case in [case for case in standing if case not in self.decided] + self.db.untold(): self.say(f"INQUIRE {case}")
        for case in standing: case in self.decided and self.later(case, self.db.end, self.decided[case])   # it failed before
    # a branch at work
    def join(self, of):
        with self.guard:
            if of not in self.tickets:
                self.given += 1
                self.tickets[of] = f"{self.me}.{self.db.boot}.{self.given}"
                self.active[f"{PARENT_CASE.fullmatch(of)[1]}@{self.tickets[of]}"] = active()
            self.say(f"JOINED {of} {self.tickets[of]}")
    def work(self, case, number, words):
        a = self.active.get(case)
        if a is None or a.spoiled or number != a.done + 1: return     # out of order, or again: as if it were lost
        a.done, a.seen = number, time.time()
        try:
            a.session = a.session or self.db.begin(case)
            done, wrote = self.db.perform(a.session, words)
            a.wrote |= wrote
            if not done: self.spoil(case, a)
        except Gone: a.session = None; a.spoiled = True               # it was not asked to promise: it is rolled back
    def spoil(self, case, a):
        a.spoiled, a.session, session = True, None, a.session
        try: session and self.db.rollback(session, case)
        except Gone: pass                                             # it is rolled back with its session
    def tire(self, case, a): self.active.get(case) is a and self.spoil(case, a)     # else its session is another's by now
    def drop(self, case):
        with self.guard:
            self.tickets = {of: ticket for of, ticket in self.tickets.items() if not case.endswith("@" + ticket)}
            return self.active.pop(case)
    def prepare(self, case, count):
        if case not in self.active:
            return self.say(f"{'YES' if case in self.decided or case in self.db.prepared() else 'NO'} {case}")
        a = self.drop(case)
        vote = "NO" if a.done != count or a.spoiled else "YES" if a.wrote else "READ"
        if vote != "YES": self.spoil(case, a)
        elif self.db.prepare(a.session, case): self.note("Prepared", case)
        else: vote = "NO"
        self.say(f"{vote} {case}")
    # an outcome
    def outcome(self, case, how):
        ticket, found = case.split("@")[1], ""
        if case in self.active:
            if how == "commit": return                                # nobody commits what has not promised
            self.spoil(case, self.drop(case))
        elif (by := self.decided.get(case)) is not None:              # an operator was first
            if self.db.tell(case, how) != how: return
            found = f" mixed {ticket}" if by != how else ""
        else:
            ended = self.db.end(case, how)                            # True: now; None: there is none; False: not now
            if ended is False: return
            if ended: self.note("Committed" if how == "commit" else "RolledBack", case)
            elif (was := self.db.ended(case)) is None: found = f" unreported {ticket}"
            elif was != how: found = f" mixed {ticket}"
        if not presumed(case, how): self.say(f"ACK {case} {how}{found}")
    def decide(self, case, how):
        if case not in self.doubts(): return ["refused 7"]
        case in self.active and self.spoil(case, self.drop(case))
        self.db.decide(case, how); self.decided[case] = how; self.db.end(case, how)
        self.note("HeurCommit" if how == "commit" else "HeurRollback", case)
    def forget(self, case):
        if case not in self.decided: return ["refused 8"]
        self.db.forget(case); del self.decided[case]; self.note("Forgot", case)
    # lines: each is made after those of its case that came before it
    def later(self, case, do, *words):
        before = [self.last[case]] if case in self.last else []
        self.last[case] = done = self.pool.submit(lambda: wait(before) and do(case, *words) or ["ok"])
        done.add_done_callback(lambda _: done.exception() and ended(done.exception()))
        return done
    def message(self, sender, receiver, word, name, rest):
        if word == "JOIN" and PARENT_CASE.fullmatch(name) and rest is None: do = None
        elif not (m := CASE.fullmatch(name)): return ["error"]
        elif word == "WORK" and WORK.fullmatch(rest or ""): do = self.work, int(rest.split(" ")[0]), rest.split(" ")[1:]
        elif word == "PREPARE" and re.fullmatch(NUMBER, rest or ""): do = self.prepare, int(rest)
        elif word in ("COMMIT", "ABORT") and rest is None: do = self.outcome, word.lower()
        else: return ["error"]
        if (sender, receiver) != (self.parent, self.me) or do and int(m[1]) != self.me: return ["refused 9"]
        return self.later(name, *do) if do else self.join(name) or ["ok"]
    def line(self, text):
        words, m = text.split(" "), MESSAGE.fullmatch(text)
        if m: return self.message(int(m[1]), int(m[2]), *m.groups()[2:])
        if words in (["doubt"], ["status"]):
            doubts, untold = self.doubts(), self.db.untold()
            told = [f"doubt {c}" for c in doubts] + [f"decided {c} {self.decided[c]}" for c in untold]
            if text == "doubt": return told + ["ok"]
            return [f"status boot {self.db.boot} at-work {len(self.active)} in-doubt {len(doubts)} decided {len(untold)}", "ok"]
        if text in ("help", "end"): self.ending = text == "end"; return HELP * (text == "help") + ["ok"]
        if len(words) < 2 or not CASE.fullmatch(words[1]): return ["error"]
        act = {"heur commit": (self.decide, "commit"), "heur rollback": (self.decide, "abort"), "forget": (self.forget,)}
        act = act.get(" ".join(words[:1] + words[2:]))
        return self.later(words[1], *act) if act else ["error"]
    def answer(self):
        for end in iter(self.ends.get, None): self.put(*(end.result() if isinstance(end, Future) else end))
    def tick(self):
        """Who is in doubt asks again. A branch of which nothing was heard for long is spoiled, and frees its locks."""
        if time.time() - self.asked > self.ask: self.question()
        self.last = {case: future for case, future in self.last.items() if not future.done()}
        for case, a in list(self.active.items()):
            if not a.spoiled and time.time() - a.seen > self.idle: self.later(case, self.tire, a)
def ended(why): print(f"leaf: {why if isinstance(why, Gone) else repr(why)}", file=sys.stderr, flush=True); os._exit(4)
def serve(make):
    """Answers the lines of standard input: 0 at its end, 4 if the database is gone."""
    try:
        leaf, unread = make(), b""
        signal.signal(signal.SIGTERM, lambda *_: os._exit(0))
        (printer := threading.Thread(target=leaf.answer)).start()
        while not leaf.ending:
            leaf.tick()
            if not select.select([0], [], [], min(leaf.ask, 1.0))[0]: continue
            if not (more := os.read(0, 65536)): break
            *lines, unread = (unread + more).split(b"\n")
            for text in (line.decode("ascii", "replace").removesuffix("\r") for line in lines):
                if text and text[0] != "#" and not leaf.ending: leaf.ends.put(leaf.line(text))
        return leaf.ends.put(None) or printer.join() or 0
    except BaseException as why: ended(why)
