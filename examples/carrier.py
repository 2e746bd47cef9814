#!/usr/bin/env python3
"""Carries the messages of a tree between its nodes: examples/carrier.py TREE FOLDER [RSTAR [N=COMMAND..]]

Starts `rstar node` for each process of the tree in the file TREE, over the log FOLDER/N.log, which it makes where there
is none; and COMMAND in its place for process N, as a leaf over a database (docs/LEAVES.md). It reads lines from standard input:

    N LINE    gives LINE to node N, and then passes on each message, the oldest first, until none is left
    kill N    kills node N (SIGKILL) and starts it again
    lose      loses the messages of the next line

What the nodes answer is written with `[N]` before it. RSTAR is the program, `rstar` if none is named.
"""
import shlex
import subprocess
import sys
import tomllib
from collections import deque
from pathlib import Path


class Node:
    def __init__(self, number, command, log):
        self.number, self.command, self.log = number, command, log
        self.start()

    def start(self):
        new = [] if self.log is None or self.log.exists() else ["--new"]
        self.process = subprocess.Popen([*self.command, *new], text=True, bufsize=1, stdin=subprocess.PIPE, stdout=subprocess.PIPE)
        self.sent = deque(self.answer())  # a node that starts again asks for what it does not know

    def answer(self):
        """Reads one answer. Gives the messages in it."""
        messages = []
        for line in map(str.rstrip, self.process.stdout):
            print(f"[{self.number}] {line}", flush=True)
            if line in ("ok", "error") or line.startswith("refused "):
                break
            if line.split()[0].isdigit():
                messages.append(line)
        return messages

    def ask(self, line):
        self.process.stdin.write(line + "\n")
        return self.answer()


def deliver(nodes, net):
    while net:
        line = net.popleft()
        receiver = int(line.split()[1].split("->")[1])
        net += nodes[receiver].ask(line)


def main():
    if sys.argv[1:] in (["-h"], ["--help"]):
        print(__doc__)
        return
    if len(sys.argv) < 3:
        sys.exit(__doc__)
    tree, folder = sys.argv[1], Path(sys.argv[2])
    rstar = sys.argv[3] if len(sys.argv) > 3 else "rstar"
    others = {int(number): shlex.split(command) for number, _, command in (word.partition("=") for word in sys.argv[4:])}
    nodes = {}
    for number in [process["id"] for process in tomllib.loads(Path(tree).read_text())["process"]]:
        log = None if number in others else folder / f"{number}.log"
        nodes[number] = Node(number, others.get(number) or [rstar, "node", tree, str(number), str(log)], log)
    loses = False
    for first, _, rest in (line.strip().partition(" ") for line in sys.stdin if line.strip()):
        if first == "lose":
            loses = True
            continue
        node = nodes[int(rest if first == "kill" else first)]
        if first == "kill":
            node.process.kill()
            node.process.wait()
            node.start()
        net = node.sent if first == "kill" else deque(node.ask(rest))
        deliver(nodes, deque() if loses else net)
        loses = False
    for node in nodes.values():
        node.process.stdin.close()
        node.process.wait()


main()
