"""Transfers between PostgreSQL and MariaDB through a tree of `rstar node`, with everything killed now and then, and the money counted:

    tools/live bank [--txns N] [--kills N] [--seeds A-B] [--presumptions pa,pc] [--at-once N] [--lose P] [--again P] [--late P]
    tools/live bank --pairs N [--txns N] [--at-once N]

A root (1) has PostgreSQL below it (3), and a coordinator (2) with MariaDB below that (4). Each transfer takes an amount from an
account of one and adds it to one of the other. Messages are lost, repeated and late; root, coordinator, both leaves and both
servers are killed in turn (SIGKILL), --kills times each, while transfers are under way. At the end nothing is lost any more, what is undecided is aborted, who is
in doubt asks, and the nodes end in order. What the root's log reports is looked at in both databases, as an operator would, and
what is no mismatch is cleared. It fails if the money is not what it was, if a branch is left prepared, if one database alone
committed, if an outcome that was told is not what the databases, `rstar audit` of the nodes' files, and `outcome` say, or if a
report stands that is no mismatch.

--pairs: the same transfers with no kills and no losses, and by a script that prepares and commits in both databases and has no
log, in turns: the median of the ratios.

What is missing of Debian's packages is installed. The servers stand in a temporary folder, at 127.0.0.1 and sockets in it.
"""
import argparse
import asyncio
import collections
import os
import random
import shutil
import statistics
import subprocess
import sys
import tempfile
import threading
import time
from pathlib import Path

import live_servers
from live_net import Died, Net, Program

TOP = Path(__file__).resolve().parent.parent
LEAVES = TOP / "leaves"
TREE = "".join(f'[[process]]\nid = {i}\nkind = "{kind}"\n' + (f"parent = {parent}\n" if parent else "") for i, kind, parent in
               [(1, "coordinator", None), (2, "coordinator", 1), (3, "manager", 1), (4, "manager", 2)])
ROOT, MIDDLE, PG, MY = 1, 2, 3, 4
NAMES = {ROOT: "root", MIDDLE: "coordinator", PG: "leaf of PostgreSQL", MY: "leaf of MariaDB"}
WORDS = {"pa": "Presumed Abort", "pc": "Presumed Commit", "pa,pc": "both presumptions"}


class Bank:
    """The application: it begins, joins, works and commits, and notes what it is told."""

    def __init__(self, world, net, seed, presumptions):
        self.a, self.net, self.tree, self.pg_env = world.a, net, world.name, world.pg.env
        self.chance = random.Random(seed)
        self.presumptions = presumptions.split(",")
        self.told, self.joined, self.waits = {}, {}, {}
        self.counts, self.killed = collections.Counter(), collections.Counter()
        self.begun, self.finished, self.shown, self.is_over = [], 0, 0, False
        net.watchers.append(self.saw)
        net.delivered = self.delivered
        self.root, self.middle = net.programs[ROOT], net.programs[MIDDLE]

    def saw(self, _, line):
        words = line.split(" ")
        if words[0] == "told":
            if self.told.setdefault(words[1], words[2]) != words[2]:
                raise SystemExit(f"{words[1]}: told {self.told[words[1]]}, then {words[2]}")
            self.wake(("told", words[1]))
        elif words[0] == "joined":  # of a node or a carrier that tells it
            self.has_joined(words[1], int(words[2]), words[3].split("@")[1])

    def has_joined(self, case, child, ticket):
        self.joined.setdefault((case, child), ticket)
        self.wake(("joined", case, child))

    def wake(self, what):
        if (future := self.waits.pop(what, None)) is not None and not future.done():
            future.set_result(None)

    def delivered(self, line, future):
        """A JOINED that was accepted, of a node that does not tell it."""
        words = line.split(" ")
        if words[2] == "ACK" and "unreported" in words:
            self.counts[f"acknowledged as unreported by {words[1].split('->')[0]}"] += 1
        if words[2] == "JOINED":
            def answered(future):
                if future.exception() is None and future.result()[-1] == "ok":
                    self.has_joined(words[3], int(words[1].split("->")[0]), words[4])
            future.add_done_callback(answered)

    async def wait(self, what, has, seconds):
        if has():
            return True
        future = self.waits.setdefault(what, self.net.loop.create_future())
        try:
            await asyncio.wait_for(asyncio.shield(future), seconds)
        except asyncio.TimeoutError:
            pass
        return has()

    async def ask(self, program, line):
        lines = await program.ask(line)
        if lines[-1] != "ok":
            self.counts[f"`{line.split(' ')[0]}` {lines[-1]}"] += 1
        return lines

    async def join(self, program, case, child):
        key = (case, child)
        for _ in range(4):
            await self.ask(program, f"join {case} {child}")
            if await self.wait(("joined", case, child), lambda: key in self.joined, self.a.patience):
                return self.joined[key]
        return None

    async def transfer(self):
        lines = await self.ask(self.root, f"begin {self.chance.choice(self.presumptions)}")
        txn = next((line.split(" ")[1] for line in lines if line.startswith("begin ")), None)
        if txn is None:
            return
        self.begun.append(txn)
        try:
            there, middle = await asyncio.gather(self.join(self.root, txn, PG), self.join(self.root, txn, MIDDLE))
            below = f"{txn}@{middle}"
            if there is None or middle is None or await self.join(self.middle, below, MY) is None:
                await self.give_up(txn)
                return
            much, way = self.chance.randrange(1, 60), self.chance.choice("+-")
            back = "-" if way == "+" else "+"
            if self.chance.random() < self.a.reads:
                works = [(self.root, txn, PG, "get", ""), (self.middle, below, MY, "get", "")]
            else:
                works = [(self.root, txn, PG, "put", f" {way}{much}"), (self.middle, below, MY, "put", f" {back}{much}")]
            if txn[0] == "a" and works[0][3] == "put" and self.chance.random() < self.a.own:
                if not await self.own_session(f"{txn}@{there}", f"{way}{much}"):
                    await self.give_up(txn)
                    return
                await self.ask(self.root, f"work {txn} {PG} put own-session 1")
                works = works[1:]
            for program, case, child, verb, value in works:
                await self.ask(program, f"work {case} {child} {verb} n{self.chance.randrange(1, live_servers.ACCOUNTS + 1)}{value}")
            await self.ask(self.root, f"commit {txn}")
            if not await self.wait(("told", txn), lambda: txn in self.told, self.a.patience * 4):
                await self.give_up(txn)
        except Died:
            self.counts["a coordinator died under it"] += 1

    async def own_session(self, case, change):
        """The application's own session in PostgreSQL: it works, and prepares under the case's name itself."""
        gid = f"{self.tree}:{case}"
        sql = (f"BEGIN; UPDATE account SET balance = balance + ({change}) WHERE id = 'n{self.chance.randrange(1, live_servers.ACCOUNTS + 1)}';"
               f"INSERT INTO rstar_ended VALUES ('{gid}', 'commit'); PREPARE TRANSACTION '{gid}'")
        psql = await asyncio.create_subprocess_exec("psql", "-X", "-q", "-v", "ON_ERROR_STOP=1", "-c", "SET lock_timeout = 500", "-c", sql, "bank",
                                                    env=self.pg_env, stdout=asyncio.subprocess.PIPE, stderr=asyncio.subprocess.DEVNULL)
        await psql.communicate()
        self.counts["prepared by the application itself" if psql.returncode == 0 else "not prepared by the application"] += 1
        return psql.returncode == 0

    async def give_up(self, txn):
        if txn not in self.told:
            await self.ask(self.root, f"abort {txn}")

    async def worker(self, txns):
        """Transfers go on until all are made and all kills are."""
        while self.finished < txns or not self.is_over:
            self.finished += 1
            try:
                await self.transfer()
            except Died:
                self.finished -= 1
                await asyncio.sleep(0.05)
            if self.finished % max(1, txns // 5) == 0 and self.finished > self.shown:
                self.shown = self.finished
                print(f"  {self.finished} of {txns} transfers, {self.commits()} committed, {sum(self.killed.values())} kills", flush=True)
            if self.a.trim and self.finished % self.a.trim == 0:
                for program in (self.root, self.middle):
                    try:
                        await self.ask(program, "trim")
                    except Died:
                        pass

    async def asker(self):
        """A node has no clock: whoever runs it has it ask every few seconds for what it is in doubt of."""
        while True:
            await asyncio.sleep(self.a.ask)
            for program in (self.middle,):
                try:
                    for line in await program.ask("doubt"):
                        if line.startswith("doubt "):
                            await program.ask(f"ask {line.split(' ')[1]}")
                except Died:
                    pass

    def commits(self):
        return sum(how == "committed" for how in self.told.values())


class World:
    """The tree, its databases, and who kills them."""

    def __init__(self, arguments, folder, servers, seed, presumptions):
        self.a, self.folder, (self.pg, self.my), self.seed = arguments, folder, servers[:2], seed
        self.name, self.presumptions = f"bank{seed}{presumptions.replace(',', '')}", presumptions
        self.rstar = arguments.rstar or str(TOP / "crates" / "rstar" / "out" / "rstar")
        self.tree, self.running = folder / "tree.toml", {}
        self.tree.write_text(TREE)

    def node(self, number):
        """A log is made once: a start after that takes what is there, and never begins it again."""
        log = self.folder / f"{number}.log"
        words = f'{self.rstar} node {self.tree} {number} {log}'
        return ["sh", "-c", f"if [ -e {log} ]; then exec {words}; else exec {words} --new; fi"]

    def commands(self):
        ask = ["--ask", self.a.ask]
        return {ROOT: self.node(ROOT), MIDDLE: self.node(MIDDLE),
                PG: [sys.executable, LEAVES / "leaf_postgres.py", self.name, PG, ROOT, "bank", *ask],
                MY: [sys.executable, LEAVES / "leaf_mariadb.py", self.name, MY, MIDDLE, "bank", self.my.options("rstar_4"), *ask]}

    def programs(self, net):
        env = {PG: self.pg.env}
        return {number: Program(net, number, command, env=env.get(number)) for number, command in self.commands().items()}

    def net(self, trace):
        a = self.a
        return Net(random.Random(self.seed + 7), a.lose, a.again, a.late, trace=trace, errors=open(self.folder / "errors", "ab"))

    async def restart(self, server):
        server.kill()
        await asyncio.sleep(0.05)
        await asyncio.get_running_loop().run_in_executor(None, server.start)

    def victims(self, programs):
        """How each sort is killed."""
        async def kill(number):
            programs[number].kill()
        return {**{name: lambda number=number: kill(number) for number, name in NAMES.items()},
                "PostgreSQL": lambda: self.restart(self.pg), "MariaDB": lambda: self.restart(self.my)}

    async def killer(self, bank, victims, kills, txns):
        """A kill for each share of the transfers, and not before some have committed after the one before, or for long nothing has.
        A server that was killed starts again while others are killed."""
        kinds, after, until, restarts = list(victims), 0, 0.0, {}
        count = kills * len(kinds)
        for n in range(count):
            while bank.finished / txns * count < n or (bank.commits() < after and time.time() < until):
                await asyncio.sleep(0.01)
            kind, after = kinds[n % len(kinds)], bank.commits() + bank.chance.randrange(4)
            until = time.time() + self.a.patience * 2
            if kind in restarts:
                await restarts[kind]
            restarts[kind] = asyncio.create_task(victims[kind]())
            bank.killed[kind] += 1
        bank.is_over = True
        for restart in restarts.values():
            await restart

    async def settle(self, bank, programs):
        """Nothing is lost any more; what is undecided is aborted; whoever is in doubt asks. Gives what stays in doubt."""
        bank.net.calm()
        await asyncio.sleep(5.5)
        for program in programs.values():
            await program.up()
        for txn in bank.begun:
            await bank.give_up(txn)
        left, quiet = [], 0
        for _ in range(200):
            left = self.under_way()
            for number, program in programs.items():
                try:
                    doubts = [line.split(" ")[1] for line in await program.ask("doubt") if line.startswith("doubt ")]
                    left += doubts
                    for case in doubts if number == MIDDLE else []:
                        await program.ask(f"ask {case}")
                except Died:  # a leaf ends with its database, and is started again
                    left.append(f"process {number} ended")
            # at a second look: a leaf makes lines side by side, so a promise may be made while it says what is promised
            quiet = 0 if left else quiet + 1
            if quiet == 2:
                break
            await asyncio.sleep(0.3)
        return left

    def under_way(self):
        """What still waits to be delivered."""
        return []

    def audit(self):
        """A leaf's log is its database: to the audit it has a log with nothing in it."""
        files = []
        for number in NAMES:
            log = self.folder / f"{number}.log"
            if number in (PG, MY):
                log = self.folder / f"none{number}.log"
                if not log.exists():
                    subprocess.run([self.rstar, "node", self.tree, str(number), log, "--new"], stdin=subprocess.DEVNULL,
                                   stdout=subprocess.DEVNULL, check=True)
            files += [str(number), log]
        done = subprocess.run([self.rstar, "audit", "--file", self.tree, *files], stdout=subprocess.PIPE, check=False)
        return done.returncode, [line.split(" ") for line in done.stdout.decode().splitlines()]

    def ledgers(self):
        """What each database says that it committed."""
        sql = f"SELECT gid FROM rstar_ended WHERE how = 'commit' AND gid LIKE '{self.name}:%'"
        return [{row.split(":")[1].split("@")[0] for row in server.ask(sql)} for server in (self.pg, self.my)]

    def money(self):
        return [int(server.ask("SELECT sum(balance) FROM account")[0]) for server in (self.pg, self.my)]

    async def clear(self, bank, ledgers, wrong):
        """The operator's part: of each report at the root it is looked whether both databases have the outcome, and then forgotten."""
        reports = [line for line in self.audit()[1] if "reported" in line or "unreported" in line]
        for line in reports:
            txn = line[0]
            if [txn in ledger for ledger in ledgers] != [line[2] == "commit"] * 2:
                wrong.append(f"a report that is a mismatch: {line}")
                continue
            answer = await bank.root.ask(f"forget {txn}")
            if answer[-1] != "ok":
                wrong.append(f"forget {txn}: {answer}")
        return len(reports)

    async def started(self, trace=None):
        """The application and the programs of the tree, all of them up."""
        net = self.net(trace)
        programs = net.programs = self.running = self.programs(net)
        for program in programs.values():
            program.start()
        bank = Bank(self, net, self.seed, self.presumptions)
        for program in programs.values():
            await program.up()
        return bank, programs

    def stop(self):
        """Nothing of the tree outlives a trial that was told to end."""
        for program in self.running.values():
            program.kill()

    async def run(self, txns, kills):
        """Gives what is wrong, and what is to be said of the run."""
        before = self.money()
        print(f"seed {self.seed}, {WORDS.get(self.presumptions, self.presumptions)}: {txns} transfers, {kills} kills of each sort", flush=True)
        bank, programs = await self.started(open(self.folder / "trace", "a") if self.a.keep else None)
        net = bank.net
        begun = time.time()
        killer = asyncio.create_task(self.killer(bank, self.victims(programs), kills, txns))
        asker = asyncio.create_task(bank.asker())
        await asyncio.gather(*(bank.worker(txns) for _ in range(self.a.at_once)))
        took = time.time() - begun
        await killer
        asker.cancel()
        left = await self.settle(bank, programs)
        wrong, ledgers = [], self.ledgers()
        # so that what the operator looks at is on the disk, the nodes end in order, and are started again
        statuses = {number: await programs[number].end() for number in (ROOT, MIDDLE)}
        for number in (ROOT, MIDDLE):
            programs[number].wanted = True
            programs[number].start()
            await programs[number].up()
        left += await self.settle(bank, programs)
        reported = await self.clear(bank, ledgers, wrong)
        # each reads the whole log, so of a long run some are asked for
        outcomes = {}
        for txn in bank.chance.sample(bank.begun, min(len(bank.begun), 200)):
            lines = await bank.root.ask(f"outcome {txn}")
            outcomes[txn] = lines[0].split(" ")[2]
        for program in programs.values():
            await program.end()
        self.judge(bank, before, left, ledgers, outcomes, wrong)
        if any(status not in (0, None) for status in statuses.values()):
            wrong.append(f"the nodes ended by {statuses}")
        told = collections.Counter(bank.told.values())
        says = [f"  {len(bank.begun)} transfers in {took:.0f} s, {self.a.at_once} at once; told "
                + ", ".join(f"{count} {how}" for how, count in sorted(told.items())) + f"; never told {len(bank.begun) - len(bank.told)}; "
                f"committed in both {len(ledgers[0] & ledgers[1])}",
                "  kills: " + ", ".join(f"{kind} {count}" for kind, count in bank.killed.items()) + "; ends by status: "
                + ", ".join(f"{NAMES.get(n, n)} {dict(sorted(p.ends.items()))}" for n, p in programs.items()),
                (f"  messages {dict(net.counts)}; " if net.counts["sent"] else "  ") + f"{dict(bank.counts)}",
                f"  reports at the root {reported}, each looked at and cleared"]
        return wrong, says

    def judge(self, bank, before, left, ledgers, outcomes, wrong):
        after = self.money()
        prepared = [[word for word in server.prepared() if word.startswith(self.name + ":")] for server in (self.pg, self.my)]
        told = {how: {t for t, h in bank.told.items() if h == how} for how in ("committed", "aborted", "readonly")}
        status, audit = self.audit()
        self.money_says = f"money {sum(after)} as before ({before} to {after})"
        if sum(before) != sum(after):
            wrong.append(f"money {before} became {after}")
        if left or any(prepared):
            wrong.append(f"in doubt {left}, prepared {prepared}")
        if ledgers[0] != ledgers[1]:
            wrong.append(f"one database alone: {ledgers[0] ^ ledgers[1]}")
        if told["committed"] - ledgers[0]:
            wrong.append(f"told committed, and not there: {told['committed'] - ledgers[0]}")
        if (told["aborted"] | told["readonly"]) & ledgers[0]:
            wrong.append(f"told aborted or read only, and there: {(told['aborted'] | told['readonly']) & ledgers[0]}")
        if status != 0 or audit[-1] != ["mismatches", "0"]:
            wrong.append(f"audit {status} {audit[-1:]}")
        for line in audit[:-1]:
            txn = line[0].split("@")[0]
            if line[1] in ("in-doubt", "collecting"):
                wrong.append(f"the audit has a case in doubt: {line}")
            if (line[2] == "commit") != (txn in ledgers[0]):
                wrong.append(f"the audit says otherwise than the databases: {line}")
            if "reported" in line or "unreported" in line:
                wrong.append(f"a report stands: {line}")
        for txn, word in outcomes.items():
            if word == "open" or (word, txn in ledgers[0]) in (("committed", False), ("aborted", True)):
                wrong.append(f"outcome {txn} {word}")
        self.audit_says = f"audit clean, {len(audit) - 1} lines"


def plain(pg, my, txns, at_once, name):
    """The same transfers by a script that prepares and commits in both databases, and has no coordinator and no log of its own: what it
    leaves after a crash nobody ends. Gives how many a second."""
    sys.path.insert(0, str(LEAVES))
    import leaf_mariadb
    import leaf_postgres
    os.environ.update(PGHOST=pg.env["PGHOST"], PGUSER="postgres", PGPORT=pg.env["PGPORT"])
    made, guard = {"count": 0}, threading.Lock()
    command = ["mariadb", f"--defaults-file={my.options('rstar_plain')}", "--batch", "--unbuffered", "--skip-column-names", "--force",
               "--skip-reconnect", "--binary-mode", "bank"]

    def worker(number):
        chance = random.Random(number)
        sessions = [leaf_postgres.Session("plain", "bank", 0.5), leaf_mariadb.Session(command, 0.5)]  # the leaves' own wait for a lock

        def both(*texts):
            """A statement in each, both on their way at once."""
            done = [None, None]

            def run(place):
                done[place] = sessions[place].run(texts[place])[0]
            other = threading.Thread(target=run, args=(1,))
            other.start()
            run(0)
            other.join()
            return done
        while True:
            with guard:
                if made["count"] >= txns:
                    break
                made["count"] += 1
                gid = f"{name}:{made['count']}"
            much, here, there = chance.choice([-1, 1]) * chance.randrange(1, 60), chance.randrange(1, 101), chance.randrange(1, 101)
            xid = f"'{gid}','p',4004"
            both("BEGIN", f"XA START {xid}")
            states = both(f"UPDATE account SET balance = balance - ({much}) WHERE id = 'n{here}'",
                          f"UPDATE account SET balance = balance + ({much}) WHERE id = 'n{there}'")
            if states != ["00000", "00000"]:
                both("ROLLBACK", f"XA END {xid}; XA ROLLBACK {xid}")
                continue
            both(f"INSERT INTO rstar_ended VALUES ('{gid}', 'commit')\\; PREPARE TRANSACTION '{gid}'",
                 f"INSERT INTO rstar_ended(gid, how) VALUES ('{gid}', 'commit'); XA END {xid}; XA PREPARE {xid}")
            both(f"COMMIT PREPARED '{gid}'", f"XA COMMIT {xid}")
        for session in sessions:
            session.p.stdin.close()
            session.p.wait()
    begun = time.time()
    threads = [threading.Thread(target=worker, args=(n,)) for n in range(at_once)]
    for thread in threads:
        thread.start()
    for thread in threads:
        thread.join()
    return txns / (time.time() - begun)


async def through_the_tree(world, txns):
    """Gives how many transfers a second the tree makes, with nothing killed and nothing lost."""
    bank, programs = await world.started()
    begun = time.time()
    bank.is_over = True  # nobody kills
    await asyncio.gather(*(bank.worker(txns) for _ in range(world.a.at_once)))
    rate = txns / (time.time() - begun)
    left = await world.settle(bank, programs)
    for program in programs.values():
        await program.end()
    if left:
        raise SystemExit(f"in doubt {left}")
    return rate


def pairs(arguments, room, servers):
    ratios = []
    for number in range(1, arguments.pairs + 1):
        folder = room / f"pair{number}"
        folder.mkdir()
        world = World(arguments, folder, servers, 1000 + number, arguments.presumptions)
        tree = asyncio.run(through_the_tree(world, arguments.txns))
        script = plain(*servers[:2], arguments.txns, arguments.at_once, f"plain{number}")
        ratios.append(tree / script)
        print(f"pair {number}: {tree:.0f} transfers a second through the tree, {script:.0f} by the script: {ratios[-1]:.2f}", flush=True)
    print(f"{arguments.pairs} pairs, {arguments.at_once} at once, {arguments.txns} transfers each: the median of the ratios is {statistics.median(ratios):.2f}")
    return 0


def runs(arguments, room, servers, make):
    """Each seed under each presumption asked for. Status 1 if one of them is not as it should be."""
    status, begun = 0, time.time()
    for seed in arguments.seeds:
        for presumptions in arguments.presumptions.split("/"):
            folder = room / f"run{seed}{presumptions.replace(',', '')}"
            folder.mkdir()
            world = make(arguments, folder, servers, seed, presumptions)
            try:
                wrong, says = asyncio.run(world.run(arguments.txns, arguments.kills))
            finally:
                world.stop()
            print("\n".join(says))
            print("  WRONG: " + "; ".join(str(it) for it in wrong) if wrong
                  else f"  {world.money_says}; nothing prepared, {world.audit_says}", flush=True)
            status |= bool(wrong)
    print(f"{time.time() - begun:.0f} s: " + ("something is wrong" if status else "all as it should be"))
    return status


def parser_of(way, doc, **defaults):
    parser = argparse.ArgumentParser(prog=f"tools/live {way}", description=doc, formatter_class=argparse.RawDescriptionHelpFormatter)
    parser.add_argument("--txns", type=int, default=defaults.get("txns", 1000), help="transfers of a run at least: they go on until all kills are made")
    parser.add_argument("--kills", type=int, default=defaults.get("kills", 100), help="of each sort")
    parser.add_argument("--seeds", type=seed_range, default=seed_range(defaults.get("seeds", "1")), metavar="A-B")
    parser.add_argument("--presumptions", default=defaults.get("presumptions", "pa/pc/pa,pc"), help="pa, pc, or pa,pc; / between runs")
    parser.add_argument("--at-once", type=int, default=4)
    parser.add_argument("--ask", type=float, default=2.0, metavar="SECONDS")
    parser.add_argument("--patience", type=float, default=2.0, metavar="SECONDS", help="until a join is sent again; four times so long for an outcome")
    parser.add_argument("--own", type=float, default=0.05, metavar="P",
                        help="of a transfer under Presumed Abort: the application works and prepares in PostgreSQL by itself; 0.05")
    parser.add_argument("--reads", type=float, default=0.02, metavar="P", help="of a transfer: it only reads; 0.02")
    parser.add_argument("--trim", type=int, default=0, metavar="N", help="the nodes are trimmed after each N transfers")
    parser.add_argument("--rstar", help="the program; crates/rstar/out/rstar if none is named")
    parser.add_argument("--keep", metavar="FOLDER", help="a folder for all files, which stays, with what was said by each process")
    return parser


def seed_range(text):
    first, _, last = text.partition("-")
    return range(int(first), int(last or first) + 1)


def main(words):
    parser = parser_of("bank", __doc__)
    for word, chance in (("lose", 0.02), ("again", 0.05), ("late", 0.05)):
        parser.add_argument("--" + word, type=float, default=chance, metavar="P", help=f"of a message; {chance}")
    parser.add_argument("--pairs", type=int, default=0, metavar="N")
    arguments = parser.parse_args(words)
    live_servers.need("psql", "mariadbd", "mariadb")
    room = Path(arguments.keep or tempfile.mkdtemp(prefix="bank"))
    room.mkdir(exist_ok=True)
    try:
        with live_servers.Servers(room, live_servers.Postgres, live_servers.MariaDB) as servers:
            if arguments.pairs:
                arguments.lose = arguments.again = arguments.late = arguments.own = arguments.reads = 0.0
                arguments.presumptions = arguments.presumptions.split("/")[-1]
                return pairs(arguments, room, servers)
            return runs(arguments, room, servers, World)
    finally:
        if not arguments.keep:
            shutil.rmtree(room, ignore_errors=True)
