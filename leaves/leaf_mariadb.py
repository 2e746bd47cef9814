#!/usr/bin/env python3
"""A leaf over MariaDB (10.5 or later), by its own client:

    leaf_mariadb.py NAME ME PARENT DATABASE OPTIONS [--works WORKS] [--ask SECONDS] [--idle SECONDS] [--wait SECONDS]

OPTIONS is a file of the client's, with a line [client] and below it user=, and socket= or host=, port= and password=. That
user is this leaf's alone: as it starts it ends all its other sessions. A case's XID is (4003, `NAME:TXN`, TICKET). The server
has max_connections for one session a branch that is at work or promised. It reads lines and answers them, as docs/LEAVES.md
tells; status 4: start it again."""
import re, subprocess, time
from leaf import Gone, ended
from sql import Database, run

class Session:
    """A client that goes on after an error, and does not reconnect: what follows would be outside of any transaction."""
    def __init__(self, command, wait):
        self.p = subprocess.Popen(command, stdin=subprocess.PIPE, stdout=subprocess.PIPE, stderr=subprocess.STDOUT, text=True)
        self.must(f"SET SESSION innodb_lock_wait_timeout = {max(1, round(wait))}, sql_mode = 'STRICT_ALL_TABLES'")
    def run(self, sql):
        """The state ('00000': all went well) of the last statement that failed, and the lines; Gone if the connection is."""
        try: self.p.stdin.write(sql + ";\nSELECT '.';\n"); self.p.stdin.flush()
        except OSError: raise Gone("the connection is gone") from None
        state, lines = "00000", []
        while line := self.p.stdout.readline():
            if line == ".\n": return state, lines
            if m := re.match(r"ERROR (\d+) \((\w+)\)", line):
                if m[1][0] == "2" and len(m[1]) == 4 or m[1] in ("1053", "1317", "1927"): lines = [line.rstrip()]; break
                state = m[2] if m[2] != "HY000" else m[1]
            else: lines.append(line.rstrip("\n"))
        self.end()
        raise Gone("the connection is gone: " + " ".join(lines[-1:]))
    def must(self, sql):
        state, lines = self.run(sql)
        if state != "00000": raise Gone(f"{sql}: {state}")
        return lines
    def end(self): self.p.kill(); self.p.wait()

class MariaDB(Database):
    def __init__(self, tree, me, statements, database, options, wait):
        super().__init__(tree, me, statements)
        self.held, self.wait = {}, wait
        self.command = ["mariadb", f"--defaults-file={options}", "--batch", "--unbuffered", "--skip-column-names", "--force",
                        "--skip-reconnect", "--binary-mode", database]
        if self.must("SELECT @@innodb_flush_log_at_trx_commit") != ["1"]: raise Gone("a promise would not be forced")
        self.must("CREATE TABLE IF NOT EXISTS rstar_leaf(name varchar(80) PRIMARY KEY, boot bigint NOT NULL) ENGINE=InnoDB;"
            "CREATE TABLE IF NOT EXISTS rstar_ended(gid varchar(128) CHARACTER SET ascii COLLATE ascii_bin PRIMARY KEY, "
            "how varchar(8) NOT NULL, at timestamp DEFAULT now()) ENGINE=InnoDB;"
            "CREATE TABLE IF NOT EXISTS rstar_decided(gid varchar(128) CHARACTER SET ascii COLLATE ascii_bin PRIMARY KEY, "
            "how varchar(8) NOT NULL, told varchar(8)) ENGINE=InnoDB")
        # 1. The boot is raised, on the disk. By the clock too: a database that came back from a backup gives no number twice.
        self.name = f"{tree}.{me}"
        self.must(f"INSERT INTO rstar_leaf VALUES ('{self.name}', unix_timestamp()) ON DUPLICATE KEY UPDATE "
                  "boot = greatest(boot + 1, unix_timestamp())")
        self.boot = int(self.must(f"SELECT boot FROM rstar_leaf WHERE name = '{self.name}'")[0])
        # 2. What an earlier leaf had under way ends. A branch is its session's until that is gone: XA RECOVER lists it, and
        # XA COMMIT calls it unknown.
        mine = "user = substring_index(current_user(), '@', 1)"
        while ids := self.must(f"SELECT id FROM information_schema.processlist WHERE {mine} AND id <> connection_id()"):
            for number in ids: self.run(f"KILL {number}")
            time.sleep(0.02)
        # a DELETE that looks for its rows would wait for those that promised branches hold: so they are looked for without locks
        for gid in self.must("SELECT gid FROM rstar_ended WHERE at < now() - interval 7 day LIMIT 10000"):
            self.must(f"DELETE FROM rstar_ended WHERE gid = '{gid}'")
    def open(self): return Session(self.command, self.wait)
    def quote(self, text): return f"convert(X'{text.encode().hex()}' USING ascii)"
    def xid(self, case): return "'{}:{}','{}',4003".format(self.tree, *case.split("@"))
    def prepared(self):
        found, head = [], f"{self.tree}:"
        for line in self.must("XA RECOVER"):                    # those of all databases of the server
            form, size, _, data = line.split("\t")
            txn, ticket = data[:int(size)], data[int(size):]
            is_mine = form == "4003" and txn.startswith(head) and ticket.startswith(f"{self.me}.")
            if is_mine: found.append(f"{txn[len(head):]}@{ticket}")
        return found
    # a branch at work
    def begin(self, case):
        s = self.take()
        if s.must(f"SELECT boot FROM rstar_leaf WHERE name = '{self.name}'; XA START {self.xid(case)}") != [str(self.boot)]:
            ended(Gone("a later leaf has started"))                   # 3. this one is over
        return s
    def perform(self, s, words):
        """Whether it was done, and whether it was to write."""
        sql, writes = self.statement(words)
        state, lines = s.run(sql + ("; SELECT row_count()" if writes else "")) if sql else ("none", [])
        return state == "00000" and not (writes and lines[-1:] == ["0"]), writes
    def prepare(self, s, case):
        # the row is seen just if the branch commits: so an outcome that comes again is acknowledged as the first time
        state, _ = s.run(f"INSERT INTO rstar_ended(gid, how) VALUES ('{self.gid(case)}', 'commit')")
        if state != "00000": return self.rollback(s, case) or False
        state, _ = s.run(f"XA END {self.xid(case)}; XA PREPARE {self.xid(case)}")
        if state == "00000": self.held[case] = s; return True        # the branch stays its session's
        if state.startswith("XA1"): return self.rollback(s, case) or False
        raise Gone(f"XA PREPARE: {state}")
    def rollback(self, s, case):
        xid = self.xid(case)
        s.run(f"XA END {xid}")                                       # an error, if the branch is rolled back already
        if s.run(f"XA ROLLBACK {xid}")[0] in ("00000", "XAE04"): self.free.append(s)
        else: s.end()
    # an outcome
    def end(self, case, how):
        """True: it has ended so now. None: there is none. False: it is not known, or not now."""
        s, verb = self.held.get(case), "COMMIT" if how == "commit" else "ROLLBACK"
        state, _ = (s or self).run(f"XA {verb} {self.xid(case)}")
        if state == "00000":
            if s: self.free.append(self.held.pop(case))
            if how == "abort" and case[0] == "c":
                self.must(f"INSERT IGNORE INTO rstar_ended(gid, how) VALUES ('{self.gid(case)}', 'abort')")
            return True
        return None if state == "XAE04" and case not in self.prepared() else False

def make(a, statements): return MariaDB(a.name, a.me, statements, a.database, a.options, a.wait)
if __name__ == "__main__": run(__doc__, make, ("OPTIONS", "a file of the client's"))
