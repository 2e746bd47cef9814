"""Plays parent to leaves, kills them, and says which rule they broke:

    tools/live leaf [--rounds N] [--seed S] [--leaves WORDS] [--no-faults] [--faults-only] [--jobs N]
    tools/live leaf [--rounds N] [--seed S] [options] -- COMMAND OF A LEAF..

Without a COMMAND it plays parent to all leaves of leaves/: over PostgreSQL and MariaDB in Python, each also with promises that
take their time; XaLeaf.java over Derby and H2 in process, PostgreSQL and MariaDB by their JDBC drivers, and ActiveMQ's XA session;
and `rstar node` as a manager. Each must break no rule. Then to leaves over PostgreSQL and MariaDB with one fault each, and each
must be found. What is missing of Debian's packages is installed; the servers stand in a temporary folder, at 127.0.0.1 alone.

With a COMMAND it plays parent to that leaf, which reads lines and answers each by its messages and then `ok`, `refused E` or
`error`, as `rstar node` does (docs/LEAVES.md); it may write INQUIRE at any time. Each round plays every scenario under both
presumptions, in any order: losses, repeats, late and contradicting messages, strangers, kills at each step. For each rule that
was broken a line is printed, with the lines of its scenario. Status 0: none was.
"""
import argparse
import os
import shutil
import subprocess
import sys
import tempfile
import threading
import time
from concurrent.futures import ThreadPoolExecutor
from pathlib import Path

import leaf_driver
import leaf_faults
import live_servers
from leaf_driver import Parent

TOP = Path(__file__).resolve().parent.parent
LEAVES = TOP / "leaves"
JARS = "/usr/share/java"
TREE = ('[[process]]\nid = 1\nkind = "coordinator"\n[[process]]\nid = 3\nkind = "manager"\nparent = 1\n')


class Case:
    """A leaf to play parent to: its name, its command, and how its number is seen."""

    def __init__(self, name, command, **more):
        self.name, self.command, self.more, self.fault = name, command, more, False


class Stage:
    """The servers, and the leaves over them."""

    def __init__(self, arguments, room):
        self.arguments, self.room, self.count, self.servers = arguments, room, 0, {}
        self.guard = threading.Lock()

    def server(self, kind):
        """Started as the first leaf wants it. A leaf that has it killed has one of its own."""
        with self.guard:
            if kind not in self.servers:
                self.servers[kind] = kind(self.room)
                self.servers[kind].create()
            return self.servers[kind]

    def own(self, kind):
        with self.guard:
            self.count += 1
            folder = self.room / f"own{self.count}"
            folder.mkdir()
            folder.chmod(0o755)
            server = self.servers[folder] = kind(folder)
        server.create()
        return server

    def stop(self):
        for server in self.servers.values():
            server.stop()

    def number(self):
        """Each leaf has an account of its own, so that they do not wait for each other."""
        with self.guard:
            self.count += 1
            return self.count

    # Python
    def postgres(self, name, words=None, own=False, env=None):
        server, n = (self.own if own else self.server)(live_servers.Postgres), self.number()
        command = [sys.executable, *(words or [LEAVES / "leaf_postgres.py"]), f"t{n}", 3, 1, "bank", "--ask", 1]

        def kill():
            server.kill()
            server.start()

        def prepare(case):
            gid = f"t{n}:{case}"
            server.ask(f"BEGIN; UPDATE account SET balance = balance + 1 WHERE id = 'n{n}'; "
                       f"INSERT INTO rstar_ended VALUES ('{gid}', 'commit'); PREPARE TRANSACTION '{gid}'")
        return Case(name, command, put=f"put n{n} +1", get=f"get n{n}", env={**server.env, **(env or {})},
                    value=lambda _: int(server.ask(f"SELECT balance FROM account WHERE id = 'n{n}'")[0]),
                    kill_database=kill if own else None, prepare=prepare)

    def mariadb(self, name, words=None, own=False, env=None):
        server, n = (self.own if own else self.server)(live_servers.MariaDB), self.number()
        command = [sys.executable, *(words or [LEAVES / "leaf_mariadb.py"]), f"t{n}", 3, 1, "bank", server.options(f"rstar_{n}"), "--ask", 1]

        def kill():
            server.kill()
            server.start()
        return Case(name, command, put=f"put n{n} +1", get=f"get n{n}", env={**os.environ, **(env or {})},
                    value=lambda _: int(server.ask(f"SELECT balance FROM account WHERE id = 'n{n}'")[0]),
                    kill_database=kill if own else None)

    # Java
    def java(self):
        with self.guard:
            folder = self.room / "classes"
            if not folder.exists():
                print("compiling leaves/Xa*.java", flush=True)
                subprocess.run(["javac", "-nowarn", "-d", folder, "-cp", f"{JARS}/*", *LEAVES.glob("Xa*.java")], check=True)
                # all jars of Debian's packages, but one way alone of writing remarks
                (self.room / "jars").mkdir()
                for jar in Path(JARS).glob("*.jar"):
                    if "slf4j" not in jar.name or jar.name in ("slf4j-api.jar", "slf4j-nop.jar"):
                        (self.room / "jars" / jar.name).symlink_to(jar)
            return ["java", "-Xshare:auto", "-XX:TieredStopAtLevel=1", "-XX:+UseSerialGC", "-cp", f"{folder}:{self.room}/jars/*", "XaLeaf"]

    def xa(self, kind, url, n, words=(), **more):
        command = [*self.java(), kind, url, f"t{n}", 3, 1, self.room / f"xa{n}.log", "--ask", 1, *words]
        return Case(f"XaLeaf over {kind}", command, **more)

    def derby(self):
        n = self.number()
        return self.xa("derby", str(self.room / f"derby{n}"), n, ["--setup"], value=asks_the_leaf, env={**os.environ})

    def h2(self):
        n = self.number()
        return self.xa("h2", f"jdbc:h2:{self.room / f'h2{n}'}", n, ["--setup"], value=asks_the_leaf)

    def xa_postgres(self):
        server, n = self.server(live_servers.Postgres), self.number()
        return self.xa("postgres", f"jdbc:postgresql://127.0.0.1:{server.port}/bank?user=postgres", n,
                       put=f"put n{n} +1", get=f"get n{n}",
                       value=lambda _: int(server.ask(f"SELECT balance FROM account WHERE id = 'n{n}'")[0]))

    def xa_mariadb(self):
        server, n = self.server(live_servers.MariaDB), self.number()
        server.options(f"rstar_{n}")
        return self.xa("mariadb", f"jdbc:mariadb://127.0.0.1:{server.port}/bank?user=rstar_{n}", n,
                       put=f"put n{n} +1", get=f"get n{n}",
                       value=lambda _: int(server.ask(f"SELECT balance FROM account WHERE id = 'n{n}'")[0]))

    def activemq(self):
        server, n = self.server(live_servers.ActiveMQ), self.number()
        return self.xa("activemq", f"tcp://127.0.0.1:{server.port}", n, put=f"put q{n} +1", get=f"get q{n}", bad="del none",
                       value=asks_the_leaf, locks=False)

    def node(self):
        n = self.number()
        folder = self.room / f"node{n}"
        folder.mkdir()
        (folder / "tree.toml").write_text(TREE)
        rstar = self.arguments.rstar or str(TOP / "crates" / "rstar" / "out" / "rstar")
        script = f'new=--new; [ -e {folder}/3.log ] && new=; exec {rstar} node {folder}/tree.toml 3 {folder}/3.log $new'
        # its works are no sums
        return Case("rstar node, a manager", ["sh", "-c", script], put="put n1 1", get="get n1", bad="put n1 " + "x" * 257, asks=False)


def asks_the_leaf(p):
    """A number that no other program can see while the leaf has the database: it tells what another session of its own sees."""
    key = p.put.split(" ")[1]
    p.send(f"value {key}")
    until = time.time() + leaf_driver.PATIENCE
    while True:
        while b"\n" not in p.unread:
            p.more(until)
        line, p.unread = p.unread.split(b"\n", 1)
        p.note(line.decode())
        if line.startswith(b"value "):
            found = None if line == b"value held" else int(line.split()[1])
        elif b"->" in line:
            p.read(line.decode())
        elif line == b"ok":
            return found


def sound(stage):
    """The leaves that must break no rule, each by a word."""
    slow = [TOP / "tools" / "leaf_faults.py", "slow"]
    return {
        "postgres": lambda: stage.postgres("leaf_postgres.py"),
        "postgres-slow": lambda: stage.postgres("leaf_postgres.py, promises that take their time", [*slow, "postgres"]),
        "postgres-killed": lambda: stage.postgres("leaf_postgres.py, its server killed under PREPARE", own=True),
        "mariadb": lambda: stage.mariadb("leaf_mariadb.py"),
        "mariadb-slow": lambda: stage.mariadb("leaf_mariadb.py, promises that take their time", [*slow, "mariadb"]),
        "mariadb-killed": lambda: stage.mariadb("leaf_mariadb.py, its server killed under PREPARE", own=True),
        "derby": stage.derby, "h2": stage.h2, "xa-postgres": stage.xa_postgres, "xa-mariadb": stage.xa_mariadb,
        "activemq": stage.activemq, "node": stage.node,
    }


def broken(stage, fault, which):
    words = [TOP / "tools" / "leaf_faults.py", fault, which]
    case = getattr(stage, which)(f"{which}: {fault}", words, own=fault in leaf_faults.UNCLEAR)
    case.fault = True
    return case


def play(arguments, case):
    """Gives whether it went as it should, and what is to be said of it."""
    lines, begun, p = [], time.time(), None
    try:
        more = dict(case.more)
        p = Parent([str(word) for word in case.command], seed=arguments.seed, show=sys.stdout if arguments.show else None, **more)
        only = arguments.only.split(",") if arguments.only else ()
        # a fault is looked for until it is found, in rounds enough
        rounds = max(arguments.rounds, 4) if case.fault else arguments.rounds
        if case.more.get("kill_database"):
            only = only or ["database_killed_at_prepare"]
            rounds *= 20 if case.fault else 5
        played, rules = leaf_driver.drive(p, rounds, only, first=case.fault, out=lines.append)
    except (SystemExit, leaf_driver.Broken, leaf_driver.Ended) as wrong:
        played, rules = 0, [f"it does not start: {wrong}"]
        if case.fault:
            return False, f"{case.name}: {rules[0]}"
    finally:
        if p is not None:
            p.end()
    took = time.time() - begun
    if case.fault:
        return bool(rules), f"{case.name}: " + (f"found: {rules[0]}" if rules else f"NOT FOUND in {played} plays") + f"; {took:.0f} s"
    counts = f"{played} plays, {p.lines if p else 0} lines, {p.kills if p else 0} kills"
    return not rules, "\n".join(lines + [f"{case.name}: {counts}: " + (f"{len(rules)} BROKE A RULE" if rules else "no rule broken") + f"; {took:.0f} s"])


def play_all(arguments, stage):
    leaves = sound(stage)
    makers = [leaves[word] for word in (arguments.leaves.split(",") if arguments.leaves else leaves)]
    makers = [] if arguments.faults_only else makers
    if not arguments.no_faults:
        found = [(fault, which) for fault in leaf_faults.FAULTS for which in ("postgres", "mariadb")]
        found += [(fault, "postgres") for fault in leaf_faults.UNCLEAR]
        if arguments.fault:
            found = [it for it in found if it[0] == arguments.fault]
        makers += [lambda fault=fault, which=which: broken(stage, fault, which) for fault, which in found]
    went = []

    def one(make):
        try:
            good, says = play(arguments, make())
        except Exception as why:  # a leaf that cannot be tried is no leaf that passed
            good, says = False, f"it cannot be tried: {why!r}"
        went.append(good)
        print(says, flush=True)
    pool = ThreadPoolExecutor(arguments.jobs)
    for done in [pool.submit(one, make) for make in makers]:
        done.result()
    return sum(went), len(makers)


def main(words):
    parser = argparse.ArgumentParser(prog="tools/live leaf", description=__doc__, formatter_class=argparse.RawDescriptionHelpFormatter)
    parser.add_argument("--rounds", type=int, default=2)
    parser.add_argument("--seed", type=int, default=1)
    parser.add_argument("--only", metavar="NAMES", help="of scenarios, with commas")
    parser.add_argument("--show", action="store_true", help="every line that is passed")
    parser.add_argument("--jobs", type=int, default=3, help="leaves at a time")
    parser.add_argument("--leaves", metavar="WORDS", help="these of the sound leaves, with commas: " + ", ".join(sound(Stage)))
    parser.add_argument("--no-faults", action="store_true", help="the sound leaves alone")
    parser.add_argument("--faults-only", action="store_true", help="those with a fault alone")
    parser.add_argument("--fault", metavar="NAME", help="this fault alone")
    parser.add_argument("--rstar", help="the program; crates/rstar/out/rstar if none is named")
    parser.add_argument("--keep", metavar="FOLDER", help="the folder of the servers, which stays; its path is short")
    own = parser.add_argument_group("of a COMMAND")
    own.add_argument("--me", type=int, default=3)
    own.add_argument("--parent", type=int, default=1)
    own.add_argument("--put", default="put n1 +1", help="a work that raises a number by one")
    own.add_argument("--get", default="get n1", help="a work that reads")
    own.add_argument("--bad", default="put nobody +1", help="a work that is refused")
    own.add_argument("--value", metavar="SHELL", help="a command that prints the number, as others see it")
    own.add_argument("--kill", metavar="SHELL", help="a command that kills the leaf's database, and starts it again")
    own.add_argument("--ask", type=float, default=1.0, metavar="SECONDS", help="after which it asks again; 1")
    own.add_argument("--no-clock", action="store_true", help="it asks where it gets the line `ask CASE`, as a node does")
    own.add_argument("--no-locks", action="store_true", help="its works never wait for one another")
    own.add_argument("command", nargs="*", metavar="COMMAND")
    a = parser.parse_args(words)
    begun = time.time()
    if a.command:
        shell = lambda text: subprocess.run(text, shell=True, check=True, stdout=subprocess.PIPE, text=True).stdout
        case = Case("the leaf", a.command, me=a.me, parent=a.parent, put=a.put, get=a.get, bad=a.bad, ask=a.ask,
                    value=(lambda _: int(shell(a.value).split()[0])) if a.value else None, locks=not a.no_locks,
                    asks=not a.no_clock,
                    kill_database=(lambda: shell(a.kill)) if a.kill else None)
        if a.kill and not a.only:
            a.only = ",".join({scenario.__name__ for scenario in leaf_driver.SCENARIOS})
        good, says = play(a, case)
        print(says)
        return 0 if good else 1
    if unknown := set(a.leaves.split(",") if a.leaves else []) - set(sound(Stage)):
        parser.error(f"there is no leaf {', '.join(unknown)}")
    live_servers.need("psql", "mariadbd", "mariadb", "javac", f"{JARS}/derby.jar", f"{JARS}/h2.jar", f"{JARS}/postgresql.jar",
                      f"{JARS}/mariadb-java-client.jar", f"{JARS}/activemq-broker.jar")
    room = Path(a.keep or tempfile.mkdtemp(prefix="leaf"))
    room.mkdir(exist_ok=True)
    room.chmod(0o755)
    stage = Stage(a, room)
    status = 143
    try:
        good, count = play_all(a, stage)
        status = 0 if good == count else 1
    finally:
        stage.stop()
        if not a.keep:
            shutil.rmtree(room, ignore_errors=True)
        if status == 143:
            os._exit(status)  # it was told to end: nobody waits for what is under way
    print(f"{good} of {count} as they should be; {time.time() - begun:.0f} s")
    return status
