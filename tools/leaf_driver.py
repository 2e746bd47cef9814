"""Plays parent to a leaf, kills it, and says which rule it broke: for tools/live leaf.

It knows nothing of the leaf but its lines, a work that raises a number by one, and how others see that number. A scenario is a
function here; its name and the rule's sentence are what is printed when it is broken. docs/LEAVES.md has the rules and why."""
import os
import random
import select
import signal
import subprocess
import time

PATIENCE = 120  # seconds that a leaf may take to answer: the machine may be busy


class Broken(Exception):
    """A rule is broken."""


class Ended(Exception):
    """The leaf has ended before it answered."""


class Parent:
    """The parent of a leaf, as it is started by `command`. `value` gives the number as others see it, or None where nobody can look;
    `kill_database` kills the leaf's database, and starts it again; `prepare` raises the number, and prepares that under a case's name, as
    an application in its own session does; `asks` is whether it asks again by itself."""

    def __init__(self, command, me=3, parent=1, put="put n1 +1", get="get n1", bad="put nobody +1", value=None, ask=1.0, seed=1,
                 env=None, kill_database=None, locks=True, show=None, asks=True, prepare=None):
        self.command, self.me, self.parent, self.put, self.get, self.bad = command, me, parent, put, get, bad
        self.see, self.ask_after, self.env, self.kill_database, self.locks, self.show = value, ask, env, kill_database, locks, show
        self.asks, self.prepare = asks, prepare
        self.chance, self.root = random.Random(seed), f"{int(time.time())}"  # as a root's boot: no name of an earlier run comes again
        self.process, self.unread, self.txns, self.tickets, self.asked, self.shown = None, b"", 0, set(), set(), []
        self.kills = self.lines = 0
        self.presumed = {}  # the outcomes that it was told, and need not have forced
        self.start()
        self.clear()

    def clear(self):
        """What was left promised is ended, so that it is in nobody's way."""
        for case in sorted(self.asked):
            self.tell(f"ABORT {case}")

    # the program
    def start(self):
        until = time.time() + PATIENCE
        while time.time() < until:
            self.process = subprocess.Popen(self.command, stdin=subprocess.PIPE, stdout=subprocess.PIPE, env=self.env,
                                            stderr=subprocess.DEVNULL if self.kill_database else None)
            self.unread, self.asked = b"", set()
            try:
                self.answer(PATIENCE)
                for case in [case for case in sorted(self.asked) if case in self.presumed]:
                    self.tell(f"{self.presumed[case].upper()} {case}")
                return
            except Ended:
                self.process.wait()
                time.sleep(0.1)
        raise SystemExit("the leaf does not start")

    def kill(self, after=0.0):
        """Kills it and starts it again. Gives what it said before it died."""
        time.sleep(after)
        self.kills += 1
        self.process.send_signal(signal.SIGKILL)
        self.process.wait()
        self.note("KILLED")
        last = self.rest()
        self.start()
        return last

    def rest(self):
        """The messages that a leaf which has ended left."""
        more = self.unread + self.process.stdout.read()
        lines = more.decode("utf-8", "replace").split("\n")[:-1]
        for line in lines:
            self.note(line)
        try:
            self.process.stdin.close()
        except OSError:
            pass  # what it did not read
        self.process.stdout.close()
        return [self.read(line) for line in lines if "->" in line]

    def end(self):
        if self.process.poll() is None:
            self.process.stdin.close()
            try:
                self.process.wait(PATIENCE)
            except subprocess.TimeoutExpired:
                self.process.kill()
                self.process.wait()
        self.process.stdout.close()

    def note(self, line):
        self.shown.append(line)
        if self.show:
            print("   ", line, file=self.show, flush=True)

    def answer(self, seconds=PATIENCE):
        """The messages up to the line that ends the answer."""
        messages, until = [], time.time() + seconds
        while True:
            while b"\n" in self.unread:
                line, self.unread = self.unread.split(b"\n", 1)
                line = line.decode("utf-8", "replace")
                self.note(line)
                if line == "ok" or line == "error" or line.startswith("refused "):
                    return messages, line
                if "->" in line:
                    message = self.read(line)
                    if message[0] != "INQUIRE":
                        messages.append(message)
            self.more(until)

    def more(self, until):
        left = until - time.time()
        if left <= 0 or not select.select([self.process.stdout], [], [], left)[0]:
            raise Broken("it does not answer in time")
        more = os.read(self.process.stdout.fileno(), 65536)
        if not more:
            raise Ended()
        self.unread += more

    def read(self, line):
        words = line.split(" ")
        if not words[0].isdigit() or words[1] != f"{self.me}->{self.parent}":
            raise Broken(f"it writes the line of nothing, or to somebody else: {line}")
        if words[2] == "INQUIRE":
            self.asked.add(words[3])
        return words[2:]

    def ask(self, line):
        """The messages of the answer to a line."""
        return self.answer_to(line)[0]

    def answer_to(self, line):
        self.lines += 1
        self.send(line)
        return self.answer()

    def send(self, line):
        self.note("> " + line)
        try:
            self.process.stdin.write(line.encode() + b"\n")
            self.process.stdin.flush()
        except OSError:
            raise Ended() from None

    def tell(self, text):
        return self.ask(f"{self.chance.randrange(1, 999)} {self.parent}->{self.me} {text}")

    def post(self, text):
        self.send(f"{self.chance.randrange(1, 999)} {self.parent}->{self.me} {text}")

    def first(self, word):
        """Waits for the line with this word, whatever comes after it."""
        until = time.time() + PATIENCE
        while True:
            while b"\n" in self.unread:
                line, self.unread = self.unread.split(b"\n", 1)
                self.note(line.decode())
                if f" {word} " in line.decode():
                    return
                self.must(line != b"ok", f"{word} is owed", "ok")
            self.more(until)

    def listen(self, seconds, until_asked=None):
        """What it writes of itself; no longer than until it asks for this case."""
        until = time.time() + seconds
        while time.time() < until and until_asked not in self.asked:
            if select.select([self.process.stdout], [], [], max(0, until - time.time()))[0]:
                self.more(time.time() + 1)
            while b"\n" in self.unread:
                line, self.unread = self.unread.split(b"\n", 1)
                self.note(line.decode())
                if "->" in line.decode() and self.read(line.decode())[0] != "INQUIRE":
                    raise Broken(f"it says of itself: {line.decode()}")

    # the protocol
    def txn(self, how):
        self.txns += 1
        return f"{how}{self.root}.{self.txns}"

    def join(self, txn):
        messages = self.tell(f"JOIN {txn}")
        self.must(len(messages) == 1 and messages[0][:2] == ["JOINED", txn], "JOIN is answered by JOINED", messages)
        ticket = messages[0][2]
        self.must(ticket.split(".")[0] == str(self.me), "a ticket begins with the leaf's own number", messages)
        return ticket

    def new(self, how):
        txn = self.txn(how)
        ticket = self.join(txn)
        self.must(ticket not in self.tickets, "no ticket is given twice", ticket)
        self.tickets.add(ticket)
        return f"{txn}@{ticket}"

    def work(self, case, count, first=1):
        for number in range(first, first + count):
            self.must(self.tell(f"WORK {case} {number} {self.put}") == [], "WORK is answered by no message")

    def vote(self, case, count):
        messages = self.tell(f"PREPARE {case} {count}")
        self.must(len(messages) == 1 and messages[0][1:] == [case] and messages[0][0] in ("YES", "NO", "READ"),
                  "PREPARE is answered by one vote", messages)
        return messages[0][0]

    def votes(self, case, count, wanted, why):
        vote = self.vote(case, count)
        self.must(vote == wanted, why, f"{vote} and not {wanted}")

    def promised(self, how, count=None):
        count = count or self.chance.randrange(1, 4)
        case = self.new(how)
        self.work(case, count)
        self.votes(case, count, "YES", "what was done in full and has written is promised")
        return case, count

    def told(self, case, how, finds=((),)):
        """The outcome: its acknowledgement is owed or not, and may have one of these findings."""
        messages = self.tell(f"{'COMMIT' if how == 'commit' else 'ABORT'} {case}")
        if (how == "commit") != (case[0] == "a"):
            self.must(messages == [], "an outcome that is presumed is not acknowledged", messages)
            self.presumed[case] = how
            return
        wanted = [["ACK", case, how, *find] for find in finds]
        self.must(len(messages) == 1 and messages[0] in wanted, "an outcome that is not presumed is acknowledged, with what was found",
                  f"{messages} and not one of {wanted}")

    def unreported(self, case):
        return ("unreported", case.split("@")[1])

    def value(self):
        return self.see(self) if self.see else None

    def is_value(self, wanted, why):
        if wanted is None:
            return
        found = self.value()
        self.must(found is None or found == wanted, why, f"{found} and not {wanted}")

    def listed(self, line, case, rule):
        """`doubt` has this line. A leaf may do without `doubt`."""
        lines = self.doubts()
        self.must(lines[-1] == "error" or line in lines, rule, case)

    def doubts(self):
        """The lines of `doubt`."""
        self.send("doubt")
        until, lines = time.time() + PATIENCE, []
        while not lines or lines[-1] not in ("ok", "error"):
            while b"\n" not in self.unread:
                self.more(until)
            text, self.unread = self.unread.split(b"\n", 1)
            lines.append(text.decode())
            self.note(lines[-1])
            if "->" in lines[-1]:
                self.read(lines[-1])
        return lines

    def must(self, holds, rule, what=""):
        if not holds:
            raise Broken(f"{rule}: {what}")


def after(before, count):
    return None if before is None else before + count


def has_ended(p, case, outcome):
    """After a kill. An outcome that is presumed need not be forced: then it may be asked for once more."""
    p.kill()
    if (outcome == "commit") == (case[0] == "c") and case in p.asked:
        p.told(case, outcome)
        return
    p.must(case not in p.asked, "what has ended is not asked for", case)


def both(p):
    return p.chance.choice(["commit", "abort"])


# a branch at work, and its vote
def votes_once(p, how):
    case, count = p.promised(how)
    p.votes(case, count, "YES", "a promise is repeated")
    p.told(case, "abort")


def counts_works(p, how):
    before, case = p.value(), p.new(how)
    p.work(case, 2)
    p.votes(case, 3, "NO", "a work that is missing is a NO")
    p.is_value(before, "what was voted NO is rolled back")


def counts_works_in_order(p, how):
    before, case = p.value(), p.new(how)
    p.work(case, 1)
    p.work(case, 1, first=3)
    p.votes(case, 3, "NO", "a work that comes out of order is as lost")
    p.is_value(before, "what was voted NO is rolled back")


def does_a_work_once(p, how):
    before, case = p.value(), p.new(how)
    p.work(case, 1)
    p.work(case, 1)
    p.work(case, 1, first=2)
    p.work(case, 1)
    p.votes(case, 2, "YES", "a work that comes again is passed over")
    p.told(case, "commit")
    p.is_value(after(before, 2), "a work is done once")


def late_works_are_passed_over(p, how):
    before, (case, count) = p.value(), p.promised(how)
    p.work(case, 1, first=count + 1)
    p.votes(case, count, "YES", "a work after the promise is passed over")
    p.told(case, "commit")
    p.work(case, 1, first=count + 1)
    p.is_value(after(before, count), "a work after the promise is passed over")


def refused_work_is_no(p, how):
    before, case = p.value(), p.new(how)
    p.work(case, 1)
    p.must(p.tell(f"WORK {case} 2 {p.bad}") == [], "WORK is answered by no message")
    p.work(case, 1, first=3)
    p.votes(case, 3, "NO", "a work that is refused is a NO")
    p.is_value(before, "what was voted NO is rolled back")


def reads_only(p, how):
    before, case = p.value(), p.new(how)
    p.must(p.tell(f"WORK {case} 1 {p.get}") == [], "WORK is answered by no message")
    p.votes(case, 1, "READ", "who wrote nothing votes READ")
    p.votes(case, 1, "NO", "who voted READ has forgotten: it votes NO")
    p.is_value(before, "who voted READ has changed nothing")


def works_for_nothing(p, how):
    case = p.new(how)
    p.votes(case, 0, "READ", "who did nothing votes READ")


# promises and outcomes
def keeps_a_promise(p, how):
    before, (case, count) = p.value(), p.promised(how)
    p.listed(f"doubt {case}", case, "`doubt` tells what is promised")
    p.kill()
    p.must(case in p.asked, "what is promised is asked for as the leaf starts", case)
    p.votes(case, count, "YES", "a promise is kept across a kill")
    p.is_value(before, "what is promised is not seen yet")
    outcome = both(p)
    p.told(case, outcome)
    p.is_value(after(before, count if outcome == "commit" else 0), "the outcome is obeyed")
    has_ended(p, case, outcome)


def decides_nothing_alone(p, how):
    before, (case, count) = p.value(), p.promised(how)
    p.listen(p.ask_after + 1.5)
    if not p.asks:  # as a node, it has no clock: whoever runs it has it ask
        p.ask(f"ask {case}")
    p.listen(PATIENCE / 4, until_asked=case)
    p.must(case in p.asked, "who is in doubt asks again", case)
    p.votes(case, count, "YES", "a promise is kept for as long as it takes")
    p.is_value(before, "what is promised is not seen yet")
    p.told(case, "commit")
    p.is_value(after(before, count), "the outcome is obeyed")


def obeys_before_it_acknowledges(p, how):
    before, (case, count) = p.value(), p.promised(how)
    p.told(case, "commit")
    p.is_value(after(before, count), "COMMIT is obeyed before it is acknowledged")
    p.kill()
    p.is_value(after(before, count), "a commit that was acknowledged is there after a kill")
    p.told(case, "commit", ((), p.unreported(case)))
    p.is_value(after(before, count), "a COMMIT that comes again does nothing")


def rolls_back(p, how):
    before, (case, count) = p.value(), p.promised(how)
    p.told(case, "abort")
    p.is_value(before, "ABORT is obeyed")
    p.told(case, "abort", ((), p.unreported(case)))
    p.votes(case, count, "NO", "a branch that is forgotten votes NO")


def aborts_at_work(p, how):
    before, case = p.value(), p.new(how)
    p.work(case, 1)
    p.told(case, "abort", ((),))
    p.votes(case, 1, "NO", "a branch that is forgotten votes NO")
    p.is_value(before, "ABORT is obeyed")


def knows_nothing(p, how):
    txn = p.txn(how)
    case = f"{txn}@{p.me}.1.{p.chance.randrange(1, 99)}"
    p.must(p.tell(f"WORK {case} 1 {p.put}") == [], "WORK is answered by no message")
    p.votes(case, 1, "NO", "what is not known votes NO")
    for outcome in ("commit", "abort"):
        p.told(case, outcome, (p.unreported(case),))


def tickets(p, how):
    txn = p.txn(how)
    first = p.join(txn)
    p.must(first not in p.tickets, "no ticket is given twice", first)
    p.must(p.join(txn) == first, "a JOIN that comes again gets the same ticket", first)
    p.tickets.add(first)
    p.kill()
    p.votes(f"{txn}@{first}", 0, "NO", "a branch at work is gone after a kill")
    second = p.join(txn)
    p.must(second not in p.tickets, "no ticket is given twice", f"{second} of {sorted(p.tickets)[-3:]}")
    p.tickets.add(second)
    p.tell(f"ABORT {txn}@{second}")


def commit_at_work(p, how):
    before, case = p.value(), p.new(how)
    p.work(case, 1)
    messages = p.tell(f"COMMIT {case}")
    p.must(messages in ([], [["ACK", case, "commit", *p.unreported(case)]]), "COMMIT of a branch at work is not acknowledged", messages)
    p.is_value(before, "nothing is committed without a promise")
    if p.vote(case, 1) == "YES":
        p.told(case, "abort")
    p.is_value(before, "nothing is committed without a promise")


def noise(p, how):
    case, count = p.promised(how)
    to_me = f"1 {p.parent}->{p.me}"
    lines = [f"1 {p.parent}->{p.me + 1} COMMIT {case}", f"1 {p.parent + 7}->{p.me} COMMIT {case}", f"{to_me} COMMIT  {case}",
             f"{to_me} COMMIT {case} ", f"{p.parent}->{p.me} COMMIT {case}", f"{to_me} COMMIT {case.split('@')[0]}",
             f"{to_me} PREPARE {case}", f"{to_me} YES {case}", "commit", "\xff\xfe", f"0{case}",
             f"{to_me} COMMIT {case.replace('@', chr(39) + '@')}", f"{to_me} commit {case}", f"{to_me} COMMIT 0{case}"]
    for line in p.chance.sample(lines, 5):
        p.must(p.ask(line) == [], "a line for somebody else, from a stranger, or of nothing is answered by no message", line)
    p.votes(case, count, "YES", "noise changes nothing")
    p.told(case, "abort")


# kills within a step
def killed_at_prepare(p, how):
    """The vote's own time: PREPARE is on its way into the database when the leaf is killed."""
    before, case = p.value(), p.new(how)
    p.work(case, 1)
    p.post(f"PREPARE {case} 1")
    said = p.kill(p.chance.random() * p.chance.choice([0.001, 0.004, 0.02]))
    stands(p, case, before, said)


def stands(p, case, before, said):
    """Of a leaf that has started again: what it says of this case now has to agree with what it said before."""
    asked = case in p.asked
    if ["YES", case] in said:
        p.must(asked, "what was promised is asked for as the leaf starts", case)
    if ["NO", case] in said:
        p.must(not asked, "what was voted NO is never found promised", case)
    vote = p.vote(case, 1)
    p.must(vote == ("YES" if asked else "NO"), "as it starts a leaf knows what is promised", f"{vote}, asked {asked}")
    if asked:
        p.told(case, "commit")
        p.is_value(after(before, 1), "the outcome is obeyed")
        return
    p.told(case, "abort", ((), p.unreported(case)))
    p.listen(0.6)
    p.must(case not in p.asked, "what was voted NO is never found promised", case)
    p.votes(case, 1, "NO", "what was voted NO is never found promised")
    p.is_value(before, "what was voted NO is rolled back")


def killed_at_outcome(p, how):
    before, (case, count) = p.value(), p.promised(how)
    outcome = both(p)
    p.post(f"{outcome.upper()} {case}")
    p.kill(p.chance.random() * p.chance.choice([0.001, 0.004, 0.02]))
    p.told(case, outcome, ((), p.unreported(case)))
    p.is_value(after(before, count if outcome == "commit" else 0), "an outcome is obeyed once, whatever comes between")
    has_ended(p, case, outcome)
    p.is_value(after(before, count if outcome == "commit" else 0), "an outcome is obeyed once, whatever comes between")


def killed_after_its_word(p, how):
    """It is killed as soon as its YES, or its acknowledgement, is there: what it said has to be so."""
    before, case = p.value(), p.new(how)
    p.work(case, 1)
    p.post(f"PREPARE {case} 1")
    p.first("YES")
    p.kill()
    p.must(case in p.asked, "what was promised is on the disk before YES", case)
    outcome = "commit" if how == "a" else "abort"
    p.post(f"{outcome.upper()} {case}")
    p.first("ACK")
    p.kill()
    p.must(case not in p.asked, "what was acknowledged has ended before", case)
    p.is_value(after(before, 1 if outcome == "commit" else 0), "what was acknowledged has ended before")


def database_killed_at_prepare(p, how):
    """The database goes down under a PREPARE, at any place; then the leaf may vote, or say nothing and end."""
    if p.kill_database is None:
        return
    before, case = p.value(), p.new(how)
    p.work(case, 1)
    p.post(f"PREPARE {case} 1")
    time.sleep(0.0005 + p.chance.random() * 0.006)
    p.kill_database()
    said, until = [], time.time() + 2
    try:
        while time.time() < until and not any(message[1:] == [case] for message in said):
            if select.select([p.process.stdout], [], [], 0.1)[0]:
                p.more(time.time() + 1)
            while b"\n" in p.unread:
                line, p.unread = p.unread.split(b"\n", 1)
                p.note(line.decode())
                if "->" in line.decode():
                    said.append(p.read(line.decode()))
    except Ended:
        p.process.wait()
    stands(p, case, before, said + p.kill())


# an operator, and locks
def operator(p, how):
    before, (case, count) = p.value(), p.promised(how)
    decided, outcome = both(p), both(p)
    if p.answer_to(f"heur {case} {'commit' if decided == 'commit' else 'rollback'}")[1] == "error":
        p.told(case, outcome)
        return
    p.listed(f"decided {case} {decided}", case, "`doubt` tells what an operator decided until it was told its outcome")
    mixed = ("mixed", case.split("@")[1]) if decided != outcome else ()
    if p.chance.random() < 0.5:
        p.kill()
        p.must(case in p.asked, "what an operator decided is asked for until its outcome was told", case)
    p.is_value(after(before, count if decided == "commit" else 0), "an operator's decision is obeyed")
    p.told(case, outcome, (mixed,))
    p.told(case, outcome, (mixed,))
    if p.chance.random() < 0.5:
        p.kill()
        is_presumed = (outcome == "commit") == (case[0] == "c")  # then the word that it was told need not be forced
        p.must(is_presumed or case not in p.asked, "what was told is not asked for", case)
        p.told(case, outcome, (mixed,))
    p.is_value(after(before, count if decided == "commit" else 0), "an operator's decision is kept")
    p.ask(f"forget {case}")
    p.told(case, outcome, ((), p.unreported(case), mixed))


def locks(p, how):
    if not p.locks:
        return
    first, _ = p.promised(how)
    second = p.new(how)
    p.work(second, 1)
    p.votes(second, 1, "NO", "a work that waits for a lock is refused in the end")
    p.told(first, "commit")


def locks_free_each_other(p, how):
    """A work waits for the lock of a promised branch, and the outcome that frees it comes after the work."""
    if not p.locks:
        return
    first, _ = p.promised(how)
    second = p.new(how)
    p.post(f"WORK {second} 1 {p.put}")
    begun = time.time()
    p.post(f"ABORT {first}")
    while p.answer()[1] != "ok" or p.answer()[1] != "ok":
        pass
    p.must(time.time() - begun < PATIENCE, "a work that waits lets the outcome through", second)
    p.told(second, "abort")


# an application's own session
def votes_for_its_application(p, how):
    if p.prepare is None or how == "c":
        return
    before, case = p.value(), p.new(how)
    p.prepare(case)
    p.must(p.tell(f"WORK {case} 1 put own-session 1") == [], "WORK is answered by no message")
    p.votes(case, 1, "YES", "what its application has prepared itself is promised")
    p.told(case, "commit")
    p.is_value(after(before, 1), "the outcome is obeyed")


def asks_for_its_application(p, how):
    """The root has forgotten the transaction, as after a kill: no word of it comes to the leaf, unless it asks."""
    if p.prepare is None or how == "c":
        return
    before, case = p.value(), p.new(how)
    p.prepare(case)
    until, is_left = time.time() + PATIENCE, True
    while is_left and time.time() < until:
        p.asked.discard(case)
        p.listen(PATIENCE / 4, until_asked=case)
        p.must(case in p.asked, "what its application has prepared itself is asked for", case)
        p.told(case, "abort")
        is_left = f"doubt {case}" in p.doubts()
    p.must(not is_left, "ABORT is obeyed", case)
    p.is_value(before, "ABORT is obeyed")


SCENARIOS = [votes_once, counts_works, counts_works_in_order, does_a_work_once, late_works_are_passed_over, refused_work_is_no,
             reads_only, works_for_nothing, keeps_a_promise, decides_nothing_alone, obeys_before_it_acknowledges, rolls_back,
             aborts_at_work, knows_nothing, tickets, commit_at_work, noise, killed_at_prepare, killed_at_prepare, killed_at_prepare,
             killed_at_outcome, killed_after_its_word, killed_after_its_word, database_killed_at_prepare, operator, locks,
             locks_free_each_other, votes_for_its_application, asks_for_its_application]


def drive(p, rounds, only=(), first=False, out=print):
    """Plays each scenario under both presumptions, in any order, `rounds` times. Gives how many plays, and the rules that broke."""
    played, broken = 0, []
    for _ in range(rounds):
        plays = [(scenario, how) for scenario in SCENARIOS for how in "ac" if not only or scenario.__name__ in only]
        p.chance.shuffle(plays)
        for scenario, how in plays:
            p.shown, played = [], played + 1
            try:
                scenario(p, how)
                continue
            except Broken as wrong:
                told = str(wrong)
            except Ended:
                told = "it ended before it answered"
            broken.append(told)
            if first:
                return played, broken
            out(f"  {scenario.__name__} ({'Presumed Abort' if how == 'a' else 'Presumed Commit'}): {told}")
            if not p.show:
                out("\n".join("      " + line for line in p.shown[-12:]))
            p.kill()
            p.clear()
    return played, broken
