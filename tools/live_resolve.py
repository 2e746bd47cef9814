"""What a bank over PostgreSQL and MariaDB leaves when everything is killed, ended by the statements that `rstar resolve` prints:

    tools/live resolve [--rounds N] [--seconds S] [--seeds A-B] [--presumptions pa,pc] [--at-once N]

A tree as of `tools/live bank`: a root (1) with PostgreSQL below it (3), and a coordinator (2) with MariaDB below that (4). Transfers
run for some seconds; then root, coordinator and both leaves are killed (SIGKILL), for good. What stands prepared in the databases is
listed, `pg_prepared_xacts` and `XA RECOVER FORMAT='SQL'`, and goes to `rstar resolve --complete --sql` over the nodes' files; its
statements are run. It fails if a name has no statement, if a statement fails, if anything stays prepared, if one database alone
committed a transfer, or if the money is not what it was. Without --complete it must say of no name another end.

What is missing of Debian's packages is installed. The servers stand in a temporary folder, at 127.0.0.1 and sockets in it.
"""
import asyncio
import random
import shutil
import subprocess
import tempfile
import time
from pathlib import Path

import live_bank
import live_servers
from live_bank import MIDDLE, MY, PG, ROOT, WORDS


class Abandoned(live_bank.World):
    """A bank that is killed in the midst of its transfers, and not started again."""

    async def abandon(self, seconds):
        bank, programs = await self.started()
        workers = [asyncio.create_task(bank.worker(10 ** 9)) for _ in range(self.a.at_once)]
        chance = random.Random(self.seed)
        await asyncio.sleep(seconds)
        for number in chance.sample([ROOT, MIDDLE, PG, MY], 4):
            programs[number].wanted = False
            programs[number].kill()
            await asyncio.sleep(chance.choice([0, 0.005, 0.02]))
        for worker in workers:
            worker.cancel()
        await asyncio.gather(*workers, return_exceptions=True)

    def names(self):
        """The names of what is prepared, as each database prints them."""
        mine = [gid for gid in self.pg.ask("SELECT gid FROM pg_prepared_xacts") if gid.startswith(self.name + ":")]
        done = subprocess.run([*self.client(), "-e", "XA RECOVER FORMAT='SQL'"], stdout=subprocess.PIPE, text=True, check=True)
        head = f"X'{(self.name + ':').encode().hex()}".lower()
        return mine, [line.split("\t")[-1] for line in done.stdout.splitlines() if line.split("\t")[-1].lower().startswith(head)]

    def client(self):
        return ["mariadb", f"--defaults-file={self.my.options('rstar_resolve')}", "--batch", "--skip-column-names", "bank"]

    def resolve(self, names, *words):
        files = [word for number in (ROOT, MIDDLE) for word in (str(number), str(self.folder / f"{number}.log"))]
        return subprocess.run([self.rstar, "resolve", "--name", self.name, *words, "--file", str(self.tree), *files], text=True,
                              input="".join(name + "\n" for name in names), capture_output=True, check=False)

    def round(self, seconds):
        """Gives what is wrong, and how many names were resolved by each statement."""
        before, wrong = self.money(), []
        asyncio.run(self.abandon(seconds))
        time.sleep(1)  # until the databases have seen that the sessions of the leaves are gone
        counts = {}
        for names, dialect, run in zip(self.names(), ("postgresql", "mariadb"), (self.psql, self.mariadb)):
            parts = [line.rsplit(" ", 1)[-1] for line in self.resolve(names).stdout.splitlines()]
            done = self.resolve(names, "--complete", "--sql", dialect)
            statements = [line for line in done.stdout.splitlines() if not line.startswith("--")]
            if len(statements) != len(names):
                wrong.append(f"{len(names)} names in {dialect}, and {done.stdout!r} {done.stderr!r}")
            for line, part in zip(statements, parts):
                end = "commit" if "COMMIT" in line.split(" -- ")[0] else "rollback"
                counts[f"{end} in {dialect}"] = counts.get(f"{end} in {dialect}", 0) + 1
                if part not in ("wait", end):
                    wrong.append(f"{line}: {part} without --complete")
            failed = run("\n".join(statements) + "\n")
            if failed:
                wrong.append(failed)
        left = self.names()
        ledgers, after = self.ledgers(), self.money()
        if any(left):
            wrong.append(f"still prepared: {left}")
        if ledgers[0] != ledgers[1]:
            wrong.append(f"one database alone: {ledgers[0] ^ ledgers[1]}")
        if sum(before) != sum(after):
            wrong.append(f"money {before} became {after}")
        return wrong, counts, len(ledgers[0])

    def psql(self, text):
        done = subprocess.run(["psql", "-X", "-q", "-v", "ON_ERROR_STOP=1", "bank"], env=self.pg.env, input=text, text=True,
                              capture_output=True, check=False)
        return done.stderr if done.returncode else ""

    def mariadb(self, text):
        done = subprocess.run(self.client(), input=text, text=True, capture_output=True, check=False)
        return done.stderr if done.returncode else ""


def main(words):
    parser = live_bank.parser_of("resolve", __doc__)
    parser.add_argument("--rounds", type=int, default=5)
    parser.add_argument("--seconds", type=float, default=4.0)
    arguments = parser.parse_args(words)
    arguments.lose, arguments.again, arguments.late = 0.02, 0.05, 0.05
    live_servers.need("psql", "mariadbd", "mariadb")
    room = Path(arguments.keep or tempfile.mkdtemp(prefix="left"))
    room.mkdir(exist_ok=True)
    status = 0
    try:
        with live_servers.Servers(room, live_servers.Postgres, live_servers.MariaDB) as servers:
            for seed in arguments.seeds:
                for number in range(1, arguments.rounds + 1):
                    for presumptions in arguments.presumptions.split("/"):
                        folder = room / f"left{seed}{number}{presumptions.replace(',', '')}"
                        folder.mkdir()
                        world = Abandoned(arguments, folder, servers, seed * 1000 + number, presumptions)
                        wrong, counts, committed = world.round(arguments.seconds)
                        print(f"round {number}, {WORDS.get(presumptions, presumptions)}: {committed} committed in both; "
                              + (", ".join(f"{count} {end}" for end, count in sorted(counts.items())) or "nothing left behind"),
                              flush=True)
                        if wrong:
                            print("  WRONG: " + "; ".join(wrong), flush=True)
                            status = 1
    finally:
        if not arguments.keep:
            shutil.rmtree(room, ignore_errors=True)
    print("something is wrong" if status else "all as it should be: nothing prepared, and the money as before")
    return status
