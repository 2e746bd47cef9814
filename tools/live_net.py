"""The net between the programs of a tree, for tools/live bank and queue. A program takes lines and answers each by lines and `ok`,
`refused E` or `error` (`rstar node`, leaves, examples/queue_carrier.py). The net passes messages on, loses them, repeats them and
brings them late, and ends and starts programs. It reads `F->T` alone, and alters nothing."""
import asyncio
import os
import subprocess


class Died(Exception):
    """The program ended before it answered: the line was made or not."""


class Program:
    """One process of the tree. What is put to it while it is down is lost."""

    def __init__(self, net, number, argv, env=None):
        self.net, self.number, self.argv, self.env = net, number, [str(word) for word in argv], env
        self.process, self.waiting, self.lines, self.unread, self.unsent = None, [], [], b"", b""
        self.opened, self.wanted, self.kills, self.ends, self.answers = None, True, 0, {}, 0

    def start(self):
        self.process = subprocess.Popen(self.argv, stdin=subprocess.PIPE, stdout=subprocess.PIPE, stderr=self.net.errors,
                                        env=self.env)
        self.unread, self.unsent, self.lines = b"", b"", []
        for pipe in (self.process.stdin, self.process.stdout):
            os.set_blocking(pipe.fileno(), False)
        self.net.loop.add_reader(self.process.stdout.fileno(), self.hear)
        self.opened = self.net.loop.create_future()
        self.waiting = [self.opened]

    async def up(self):
        """Waits until it has opened, however often it is started."""
        while True:
            try:
                if self.opened is not None:
                    await asyncio.shield(self.opened)
                    return
            except Died:
                pass
            await asyncio.sleep(0.05)

    def put(self, line):
        """The future of its answer."""
        future = self.net.loop.create_future()
        if self.process is None:
            future.set_exception(Died())
            future.exception()
            return future
        self.waiting.append(future)
        self.unsent += line.encode() + b"\n"
        self.send()
        return future

    async def ask(self, line):
        """The lines of its answer, the last one `ok`, `refused E` or `error`."""
        return await self.put(line)

    def send(self):
        pipe = self.process.stdin.fileno()
        try:
            self.unsent = self.unsent[os.write(pipe, self.unsent):]
        except BlockingIOError:
            pass
        except OSError:
            self.unsent = b""
        if self.unsent:
            self.net.loop.add_writer(pipe, self.send)
        else:
            self.net.loop.remove_writer(pipe)

    def hear(self):
        try:
            more = os.read(self.process.stdout.fileno(), 1 << 16)
        except BlockingIOError:
            return
        if not more:
            self.gone()
            return
        *lines, self.unread = (self.unread + more).split(b"\n")
        for line in lines:
            self.line(line.decode())

    def line(self, line):
        if self.net.trace:
            self.net.trace.write(f"[{self.number}] {line}\n")
        if line == "ok" or line == "error" or line.startswith("refused "):
            self.answers += 1
            future, lines, self.lines = self.waiting.pop(0), [*self.lines, line], []
            if not future.done():
                future.set_result(lines)
            return
        self.lines.append(line)
        self.net.saw(self.number, line)

    def gone(self):
        """Its output is at its end: so is it. It is started again in a moment."""
        process, self.process = self.process, None
        self.net.loop.remove_reader(process.stdout.fileno())
        if not process.stdin.closed:
            self.net.loop.remove_writer(process.stdin.fileno())
            process.stdin.close()
        process.stdout.close()
        status = process.wait()
        self.ends[status] = self.ends.get(status, 0) + 1
        for future in self.waiting:
            if not future.done():
                future.set_exception(Died())
                future.exception()
        self.waiting = []
        if self.wanted:
            self.net.loop.call_later(self.net.chance.random() * self.net.down, self.again)

    def again(self):
        if self.wanted and self.process is None:
            self.start()

    def kill(self):
        if self.process is not None:
            self.kills += 1
            self.process.kill()

    async def end(self):
        """Ends it in order. Gives its status."""
        self.wanted = False
        if self.process is not None:
            process = self.process
            self.net.loop.remove_writer(process.stdin.fileno())
            process.stdin.close()
            while self.process is not None:
                await asyncio.sleep(0.01)
            return process.returncode
        return None


class Net:
    def __init__(self, chance, lose=0.0, again=0.0, late=0.0, trace=None, errors=subprocess.DEVNULL, down=0.3):
        self.loop = asyncio.get_running_loop()
        self.chance, self.lose, self.again, self.late = chance, lose, again, late
        self.trace, self.errors, self.down = trace, errors, down
        self.programs, self.watchers, self.counts = {}, [], {"sent": 0, "lost": 0, "again": 0, "late": 0, "down": 0}
        self.delivered = None

    def saw(self, number, line):
        words = line.split(" ", 2)
        if words[0].isdigit() and "->" in words[1]:
            self.carry(line, int(words[1].split("->")[1]))
        else:
            for watcher in self.watchers:
                watcher(number, line)

    def calm(self):
        self.lose = self.again = self.late = 0.0

    def carry(self, line, receiver):
        self.counts["sent"] += 1
        fate = self.chance.random()
        if fate < self.lose:
            self.counts["lost"] += 1
            return
        fate -= self.lose
        if fate < self.late:
            self.counts["late"] += 1
            self.loop.call_later(self.chance.random() * 0.5, self.bring, line, receiver)
            return
        fate -= self.late
        if fate < self.again:
            self.counts["again"] += 1
            self.loop.call_later(self.chance.random() * self.chance.choice([0.1, 1, 5]), self.bring, line, receiver)
        self.bring(line, receiver)

    def bring(self, line, receiver):
        program = self.programs[receiver]
        if program.process is None:
            self.counts["down"] += 1
            return
        future = program.put(line)
        if self.delivered:
            self.delivered(line, future)
