"""Transfers between PostgreSQL and MariaDB, with a queue between the processes of the tree: Redis with streams and consumer groups.

    tools/live queue [--seeds A-B] [--txns N] [--kills N] [--presumptions pa,pc] [--at-once N]

The tree, the transfers, and what is counted and audited at the end are those of `tools/live bank`. But each process of the tree is
run by examples/queue_carrier.py, as on a machine of its own: what it sends goes to the stream of the receiver, one a process,
delivery is at least once, and a carrier acknowledges a message once its process has answered it. Killed (SIGKILL), --kills times
each: carriers with the process that they run, carriers alone, before they acknowledge; PostgreSQL, MariaDB, and Redis.

What is missing of Debian's packages is installed. The servers stand in a temporary folder, at 127.0.0.1 and sockets in it.
"""
import asyncio
import os
import random
import shutil
import signal
import sys
import tempfile
from pathlib import Path

import live_bank
import live_servers
from live_bank import MIDDLE, NAMES, PG, TOP, World
from live_net import Net, Program


class Carried(Program):
    """A carrier and its process: a session of their own, so that both can be killed at once."""

    def start(self):
        self.argv = ["setsid", *[word for word in self.argv if word != "setsid"]]
        super().start()

    def kill(self):
        """Both at once: neither can end in order."""
        if self.process is not None:
            self.kills += 1
            try:
                os.killpg(self.process.pid, signal.SIGKILL)
            except ProcessLookupError:
                pass

    def kill_carrier(self):
        """Its process finds the end of its input, and ends in order; what it answered in between nobody reads."""
        if self.process is not None:
            self.process.kill()

    async def end(self):
        """The carrier of a leaf does not read its input: SIGTERM ends each in order."""
        self.wanted = False
        process = self.process
        if process is None:
            return None
        process.terminate()
        while self.process is not None:
            await asyncio.sleep(0.01)
        return process.returncode


class Queue(World):
    def __init__(self, arguments, folder, servers, seed, presumptions):
        super().__init__(arguments, folder, servers, seed, presumptions)
        self.redis = servers[2]
        self.name = f"queue{seed}{presumptions.replace(',', '')}"

    def programs(self, net):
        carrier = [sys.executable, TOP / "examples" / "queue_carrier.py", self.name]
        commands = self.commands()
        found = {}
        for number, command in commands.items():
            # the application speaks to all by --app, to a leaf as its operator
            words = [number, f"127.0.0.1:{self.redis.port}", "--app", *(["--ask", self.a.ask] if number == MIDDLE else []), "--"]
            found[number] = Carried(net, number, [*carrier, *words, *command], env=self.pg.env if number == PG else None)
        return found

    def net(self, trace):
        """No net at all: the queue carries. What is lost and late is what kills make so."""
        return Net(random.Random(self.seed + 7), trace=trace, errors=open(self.folder / "errors", "ab"))

    def under_way(self):
        lengths = {f"{self.name}.{number}": self.redis.length(f"{self.name}.{number}") for number in NAMES}
        return [f"{length} messages in {stream}" for stream, length in lengths.items() if length]

    def victims(self, programs):
        chance = random.Random(self.seed + 9)

        async def carrier():
            programs[chance.choice(list(NAMES))].kill_carrier()
        return {**super().victims(programs), "a carrier alone": carrier, "Redis": lambda: self.restart(self.redis)}


def main(words):
    arguments = live_bank.parser_of("queue", __doc__, txns=200, kills=10, seeds="1-5", presumptions="pa,pc").parse_args(words)
    live_servers.need("psql", "mariadbd", "mariadb", "redis-server")
    room = Path(arguments.keep or tempfile.mkdtemp(prefix="queue"))
    room.mkdir(exist_ok=True)
    try:
        with live_servers.Servers(room, live_servers.Postgres, live_servers.MariaDB, live_servers.Redis) as servers:
            return live_bank.runs(arguments, room, servers, Queue)
    finally:
        if not arguments.keep:
            shutil.rmtree(room, ignore_errors=True)
