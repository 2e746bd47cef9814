#!/usr/bin/env python3
"""Runs one process of a tree, and carries its messages over Redis, so that a tree runs on many machines:

    examples/queue_carrier.py NAME ME HOST:PORT [--app] [--socket PATH] [--ask SECONDS] -- COMMAND OF THE PROCESS..

COMMAND is `rstar node TREE ME LOG`, or a leaf (leaves/). The messages to process ME wait in the stream `NAME.ME`, and are taken by
the consumer group `NAME.ME`: each is acknowledged once the process has answered it and the messages of its answer are in their
streams, so a message that was under way as this program ended comes again. One carrier runs a process at a time. Entries that are
no messages are dropped. The environment's REDISCLI_AUTH is Redis's password. If Redis is gone, it waits until it is back.

--app: lines of standard input go to the process, and what it answers comes to standard output, without messages and with one `ok`,
`refused E` or `error` for its opening and for each of those lines; at the end of the input the process ends in order, and so does
this program. Else standard input is not read; the lines come to standard output, without ends of answers.
--socket: whoever connects to the socket PATH writes lines, and gets the answer to each, and beside these answers the lines of all
others, as `told TXN committed`: for operators, and for an application that is another program.
--ask: a node has no clock, so this program has it ask, every SECONDS, for what it is in doubt of.
A JOINED that is accepted is told by a line `joined CASE CHILD TXN@TICKET`, by the process (rstar node --joined) or else by this program.
SIGTERM ends the process in order. The status is that of the process: 4 is to be started again.
"""
import argparse
import collections
import os
import re
import signal
import socket
import subprocess
import sys
import threading
import time

IN_FLIGHT = 64
MESSAGE = re.compile(r"\d{1,19} \d{1,19}->\d{1,19} [A-Z]+ [!-~][ -~]{0,4000}")


class Redis:
    """A connection that is made again when it is lost, and a command until it is answered: so a command may be made twice."""

    def __init__(self, host, port):
        self.address, self.socket, self.unread, self.connections = (host, port), None, None, 0

    def __call__(self, *words):
        while True:
            try:
                if self.socket is None:
                    self.socket = socket.create_connection(self.address, 10)
                    self.connections += 1
                    self.socket.settimeout(60)
                    self.unread = self.socket.makefile("rb")
                    if password := os.environ.get("REDISCLI_AUTH"):
                        self.send("AUTH", password)
                        self.read()
                self.send(*words)
                return self.read()
            except (OSError, EOFError):
                if self.socket is not None:
                    self.socket.close()
                    self.socket = None
                time.sleep(0.1)

    def send(self, *words):
        parts = [str(word).encode() for word in words]
        self.socket.sendall(b"*%d\r\n" % len(parts) + b"".join(b"$%d\r\n%s\r\n" % (len(it), it) for it in parts))

    def read(self):
        line = self.unread.readline()
        if not line.endswith(b"\r\n"):
            raise EOFError
        kind, rest = line[:1], line[1:-2]
        if kind == b"-":
            if rest.startswith((b"LOADING", b"BUSY ", b"MASTERDOWN")):
                raise EOFError
            if not rest.startswith((b"BUSYGROUP", b"NOGROUP")):
                print("queue_carrier: Redis says " + rest.decode(), file=sys.stderr, flush=True)
            return Exception(rest.decode())
        if kind == b"+":
            return rest.decode()
        if kind == b":":
            return int(rest)
        if kind == b"$":
            if int(rest) < 0:
                return None
            data = self.unread.read(int(rest) + 2)
            if len(data) < int(rest) + 2:
                raise EOFError
            return data[:-2].decode("utf-8", "replace")
        return None if int(rest) < 0 else [self.read() for _ in range(int(rest))]


class Carrier:
    def __init__(self, arguments):
        self.a = arguments
        self.address = (arguments.redis.rpartition(":")[0], int(arguments.redis.rpartition(":")[2]))
        self.stream = f"{arguments.name}.{arguments.me}"
        self.room, self.guard, self.connected = threading.Semaphore(IN_FLIGHT), threading.Lock(), []
        # of each line that the process has not answered yet: where it came from, its text, and the lines of its answer
        self.waiting = collections.deque([("opening", "", [])])
        self.process = subprocess.Popen(arguments.command, stdin=subprocess.PIPE, stdout=subprocess.PIPE)
        self.opened = threading.Event()

    def put(self, source, line):
        self.room.acquire()
        with self.guard:
            try:
                self.waiting.append((source, line, []))
                self.process.stdin.write(line.encode() + b"\n")
                self.process.stdin.flush()
            except (OSError, ValueError):
                pass  # it ends: the one that reads it says so

    def close(self):
        with self.guard:
            try:
                self.process.stdin.close()
            except OSError:
                pass

    def take(self):
        """Gives the process what waits in its stream: first what was taken and not acknowledged, by an earlier carrier, or by this one if
        the connection was lost with the answer in which it came."""
        redis, begin = Redis(*self.address), "0"
        redis("XGROUP", "CREATE", self.stream, self.stream, "0", "MKSTREAM")  # it may be there
        connections = redis.connections
        self.opened.wait()
        while True:
            found = redis("XREADGROUP", "GROUP", self.stream, "one", "COUNT", IN_FLIGHT, "BLOCK", 1000, "STREAMS", self.stream, begin)
            if isinstance(found, Exception):  # Redis lost the group with its data
                redis("XGROUP", "CREATE", self.stream, self.stream, "0", "MKSTREAM")
                continue
            if connections != redis.connections:
                connections, begin = redis.connections, "0"
                continue
            entries = found[0][1] if found else []
            for entry, fields in entries:
                if any(source == entry for source, *_ in list(self.waiting)):
                    pass  # the process has it
                elif fields and MESSAGE.fullmatch(fields[1]):
                    self.put(entry, fields[1])
                else:  # it was answered and not yet acknowledged, or it is no message
                    self.done(redis, entry)
                begin = entry if begin != ">" else begin
            if begin != ">" and not entries:
                begin = ">"

    def application(self):
        self.opened.wait()
        self.take_lines("application", sys.stdin)
        self.close()

    def take_lines(self, source, lines):
        for line in lines:
            if line.strip("\r\n") and line[0] != "#":  # a line of nothing gets no answer
                self.put(source, line.rstrip("\r\n"))

    def listen(self):
        self.opened.wait()
        if os.path.exists(self.a.socket):
            os.unlink(self.a.socket)
        with socket.socket(socket.AF_UNIX) as door:
            door.bind(self.a.socket)
            os.chmod(self.a.socket, 0o660)
            door.listen()
            while True:
                threading.Thread(target=self.serve, args=(door.accept()[0],), daemon=True).start()

    def serve(self, one):
        with self.guard:
            self.connected.append(one)
        try:
            self.take_lines(one, one.makefile("r", errors="replace"))
        except OSError:
            pass
        # what it asked is answered before it is let go
        while any(source is one for source, *_ in list(self.waiting)):
            time.sleep(0.01)
        with self.guard:
            self.connected.remove(one)
        one.close()

    def say(self, to, lines):
        for one in list(to) if lines else []:
            try:
                one.sendall(("\n".join(lines) + "\n").encode())
            except OSError:
                pass  # it has gone

    def clock(self):
        self.opened.wait()
        while True:
            time.sleep(self.a.ask)
            self.put("clock", "doubt")

    def answered(self, redis, end):
        source, line, lines = self.waiting.popleft()
        if source == "opening":
            self.opened.set()
            if self.a.app:
                self.tell(end)
            return
        self.room.release()
        if source == "application":
            self.tell(end)
            self.say(self.connected, lines)
        elif isinstance(source, socket.socket):
            self.say([source], [*lines, end])
        elif source == "clock":
            for case in [it.split(" ")[1] for it in lines if it.startswith("doubt ")]:
                threading.Thread(target=self.put, args=("clock", f"ask {case}"), daemon=True).start()
        else:
            words = line.split(" ")
            if end == "ok" and words[2:3] == ["JOINED"] and not any(it.startswith("joined ") for it in lines):
                lines.append(f"joined {words[3]} {words[1].split('->')[0]} {words[3].split('@')[0]}@{words[4]}")
                self.tell(lines[-1])
            self.say(self.connected, lines)
            self.done(redis, source)

    def done(self, redis, entry):
        """Deleted first: if this program is killed in between, the next one finds that it is no longer there, and acknowledges it."""
        redis("XDEL", self.stream, entry)
        redis("XACK", self.stream, self.stream, entry)

    def tell(self, line):
        print(line, flush=True)

    def run(self):
        signal.signal(signal.SIGTERM, lambda *_: threading.Thread(target=self.close).start())
        redis = Redis(*self.address)
        threads = [self.take] + [self.application] * self.a.app + [self.listen] * bool(self.a.socket) + [self.clock] * bool(self.a.ask)
        for one in threads:
            threading.Thread(target=one, daemon=True).start()
        for line in self.process.stdout:
            line = line.decode().rstrip("\n")
            words = line.split(" ", 2)
            if line in ("ok", "error") or words[0] == "refused":
                self.answered(redis, line)
            elif words[0].isdigit() and "->" in words[1]:
                redis("XADD", f"{self.a.name}.{words[1].split('->')[1]}", "*", "line", line)
            else:
                # without the guard: who puts a line holds it until the process has read that. Between answers there are but messages
                source, _, lines = self.waiting[0] if self.waiting else ("none", "", [])
                lines.append(line)
                if not isinstance(source, socket.socket) and (source != "clock" or not line.startswith(("doubt ", "decided "))):
                    self.tell(line)
        return self.process.wait()


def main():
    parser = argparse.ArgumentParser(description=__doc__, formatter_class=argparse.RawDescriptionHelpFormatter)
    parser.add_argument("name", metavar="NAME", help="of the tree")
    parser.add_argument("me", metavar="ME", type=int)
    parser.add_argument("redis", metavar="HOST:PORT")
    parser.add_argument("--app", action="store_true")
    parser.add_argument("--socket", metavar="PATH")
    parser.add_argument("--ask", type=float, metavar="SECONDS")
    parser.add_argument("command", nargs="+", metavar="COMMAND")
    status = Carrier(parser.parse_args()).run()
    sys.stdout.flush()
    os._exit(status if status >= 0 else 128 - status)


main()
