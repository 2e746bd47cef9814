#!/usr/bin/env python3
"""Two accounts in two SQLite files of this program, and a transfer between them that is made in both or in neither, with a
coordinator of the library linked in: transfer.py FOLDER

The root of the tree is a node of the library; each file is a leaf. A promise is a row that is committed before the leaf votes
YES, and outlives a crash; the outcome moves the money and takes the row away. A child makes a transfer and is killed in the
midst of it, after the decision; the parent opens all again."""
import os
import signal
import sqlite3
import sys

import rstar

TREE = """
[[process]]
id = 1
kind = "coordinator"
[[process]]
id = 2
kind = "manager"
parent = 1
[[process]]
id = 3
kind = "manager"
parent = 1
"""


class Leaf:
    """An account in a SQLite file, as a manager of the tree."""

    def __init__(self, number, path, balance):
        self.number, self.tickets, self.case, self.dies = number, 0, None, False
        self.file = sqlite3.connect(path, isolation_level=None)
        self.run("PRAGMA synchronous = FULL")
        self.run("CREATE TABLE IF NOT EXISTS account (balance INTEGER CHECK (balance >= 0))")
        self.run("CREATE TABLE IF NOT EXISTS promised (name TEXT PRIMARY KEY, amount INTEGER)")
        self.run("CREATE TABLE IF NOT EXISTS boot (number INTEGER)")
        self.run("INSERT INTO account SELECT ? WHERE NOT EXISTS (SELECT 1 FROM account)", balance)
        self.run("INSERT INTO boot SELECT 1 + coalesce(max(number), 0) FROM boot")
        self.boot = self.run("SELECT max(number) FROM boot")[0][0]

    def run(self, statement, *values):
        return self.file.execute(statement, values).fetchall()

    def balance(self):
        return self.run("SELECT balance FROM account")[0][0]

    def promise(self, amount):
        """Promises to add an amount, if the account allows it."""
        self.run("INSERT INTO promised SELECT ?1, ?2 FROM account WHERE balance + ?2 >= 0", self.case, amount)

    def hear(self, message, name):
        """The answer to a message."""
        if message == "JOIN":
            self.tickets += 1
            ticket = f"{self.number}.{self.boot}.{self.tickets}"
            self.case = f"{name}@{ticket}"
            return f"JOINED {name} {ticket}"
        if message == "PREPARE":
            return f"YES {name}" if self.run("SELECT 1 FROM promised WHERE name = ?", name) else f"NO {name}"
        commits = message == "COMMIT"
        self.run("BEGIN IMMEDIATE")
        if commits:
            self.run("UPDATE account SET balance = balance + coalesce((SELECT amount FROM promised WHERE name = ?), 0)", name)
        self.run("DELETE FROM promised WHERE name = ?", name)
        self.run("COMMIT")
        if self.dies:
            os.kill(os.getpid(), signal.SIGKILL)
        return f"ACK {name} {'commit' if commits else 'abort'}"

    def inquiries(self):
        """Asks for the outcome of each promise that an earlier run left."""
        return [f"INQUIRE {name}" for (name,) in self.run("SELECT name FROM promised")]


class Bank:
    def __init__(self, folder, new):
        self.leaves = {2: Leaf(2, f"{folder}/2.sqlite", 100), 3: Leaf(3, f"{folder}/3.sqlite", 20)}
        self.root, self.begun, self.told = rstar.Node(TREE, 1, f"{folder}/1.log", new=new), None, None
        self.carry(self.root.opening)
        for number, leaf in self.leaves.items():
            for asked in leaf.inquiries():
                self.tell(f"0 {number}->1 {asked}")

    def tell(self, line):
        """Gives the root a line, and what it sends to the leaves."""
        answer = self.root.line(line)
        print(">", line, *answer, sep="\n")
        self.carry(answer)

    def carry(self, lines):
        for words in map(str.split, lines):
            if words[0] == "begin":
                self.begun = words[1]
            elif words[0] == "told":
                self.told = words[2]
            elif len(words) > 3 and "->" in words[1]:
                to = int(words[1].partition("->")[2])
                self.tell(f"0 {to}->1 {self.leaves[to].hear(words[2], words[3])}")

    def transfer(self, amount):
        self.tell("begin pa")
        self.tell(f"join {self.begun} 2")
        self.tell(f"join {self.begun} 3")
        self.leaves[2].promise(-amount)
        self.leaves[3].promise(amount)
        self.tell(f"commit {self.begun}")
        return self.told

    def expect(self, two, three, when):
        found = self.leaves[2].balance(), self.leaves[3].balance()
        print(f"{when}: {found[0]} and {found[1]}", flush=True)
        if found != (two, three):
            sys.exit(f"the accounts are wrong: {found}")


def main():
    folder = sys.argv[1]
    child = os.fork()
    if child == 0:
        bank = Bank(folder, new=True)
        bank.transfer(30)
        bank.expect(70, 50, "after a transfer")
        bank.leaves[2].dies = True
        bank.transfer(25)  # it is decided, and one leaf has obeyed, when the program dies
        os._exit(1)
    _, status = os.waitpid(child, 0)
    if not os.WIFSIGNALED(status) or os.WTERMSIG(status) != signal.SIGKILL:
        sys.exit(f"the child was not killed: {status}")
    print("killed", flush=True)
    bank = Bank(folder, new=False)
    bank.expect(45, 75, "after the crash and the recovery")
    if bank.transfer(500) != "aborted":  # more than there is: leaf 2 votes NO
        sys.exit("it was not aborted")
    bank.expect(45, 75, "after a transfer that cannot be")
    bank.root.close()


main()
