#!/usr/bin/env python3
"""A leaf over PostgreSQL, by its own client psql:

    leaf_postgres.py NAME ME PARENT DATABASE [--works WORKS] [--ask SECONDS] [--idle SECONDS] [--wait SECONDS]

PGHOST, PGPORT, PGUSER and PGPASSFILE are as for psql. A case's prepared transaction is `NAME:CASE`. The server has
max_prepared_transactions above 0, and max_connections for one session a branch that is at work. The user may make tables, and end
sessions of its own. It reads lines and answers them, as docs/LEAVES.md tells; status 4: start it again."""
import os, subprocess
from leaf import Gone, ended
from sql import Database, run

class Session:
    """A psql. It never reconnects if its input is no terminal: it ends with its connection, and so does its transaction."""
    def __init__(self, name, database, wait):
        self.p = subprocess.Popen(["psql", "-X", "-A", "-t", database], stdin=subprocess.PIPE, stdout=subprocess.PIPE,
                                  stderr=subprocess.STDOUT, env={**os.environ, "PGAPPNAME": name}, text=True)
        self.must(f"SET lock_timeout = {int(wait * 1000)}; SET synchronous_commit = on")
        self.pid = int(self.must("SELECT pg_backend_pid()")[0])
    def run(self, sql):
        """The state ('00000': all went well) and the lines; Gone if the connection is."""
        try: self.p.stdin.write(sql + ";\n\\echo . :SQLSTATE\n"); self.p.stdin.flush()
        except OSError: raise Gone("the connection is gone") from None
        lines = []
        while line := self.p.stdout.readline():
            if line.startswith(". "): return line.split()[1], lines
            lines.append(line.rstrip("\n"))
            if line.startswith(("FATAL:", "psql: error")): break      # it may stand after an answer that was whole
        self.p.kill(); self.p.wait()
        raise Gone("the connection is gone: " + " ".join(lines[-2:]))
    def must(self, sql):
        state, lines = self.run(sql)
        if state != "00000": raise Gone(f"{sql}: {lines}")
        return lines

class Postgres(Database):
    def __init__(self, tree, me, statements, database, wait):
        super().__init__(tree, me, statements)
        self.database, self.wait, self.name = database, wait, f"rstar.{tree}.{me}"
        for what, wanted in (("fsync", "on"), ("full_page_writes", "on")):
            if self.must(f"SHOW {what}") != [wanted]: raise Gone(f"{what} is off: what is promised would not be kept")
        if self.must("SHOW max_prepared_transactions") == ["0"]: raise Gone("max_prepared_transactions is 0")
        self.must("SET client_min_messages = warning;"
                  "CREATE TABLE IF NOT EXISTS rstar_leaf(name text PRIMARY KEY, boot bigint NOT NULL);"
                  "CREATE TABLE IF NOT EXISTS rstar_ended(gid text PRIMARY KEY, how text NOT NULL, at timestamptz DEFAULT now());"
                  "CREATE TABLE IF NOT EXISTS rstar_decided(gid text PRIMARY KEY, how text NOT NULL, told text)")
        # 1. The boot is raised, on the disk. By the clock too: a database that came back from a backup gives no number twice.
        self.boot = int(self.must(f"INSERT INTO rstar_leaf VALUES ('{self.name}', extract(epoch FROM now())::bigint) ON CONFLICT "
            "(name) DO UPDATE SET boot = greatest(rstar_leaf.boot + 1, excluded.boot) RETURNING boot")[0])
        # 2. What an earlier leaf had under way ends: else a PREPARE that is on its way is made after the first look.
        self.end_sessions(f"application_name = '{self.name}' AND pid <> pg_backend_pid()")
        self.must("DELETE FROM rstar_ended WHERE at < now() - interval '7 days'")
    def open(self): return Session(self.name, self.database, self.wait)
    def quote(self, text): return "'" + text.replace("'", "''") + "'"
    def end_sessions(self, which):
        while self.must(f"SELECT pg_terminate_backend(pid, 10000) FROM pg_stat_activity WHERE {which}"): pass
    def prepared(self):
        return self.cases(self.rows("gid", f"pg_prepared_xacts WHERE database = current_database() AND {self.mine()}"))
    # a branch at work
    def begin(self, case):
        s = self.take()
        if s.must(f"BEGIN; SELECT boot FROM rstar_leaf WHERE name = '{self.name}'")[1:] != [str(self.boot)]:
            ended(Gone("a later leaf has started"))                   # 3. this one is over
        s.case, s.is_own = case, False
        return s
    def perform(self, s, words):
        """Whether it was done, and whether it was to write."""
        if words[:2] == ["put", "own-session"]:                      # the application works, and prepares NAME:CASE, itself
            s.is_own = s.case[0] == "a"                              # a name that comes late asks, and must hear ABORT
            return s.is_own, True
        sql, writes = self.statement(words)
        state, lines = s.run(sql) if sql else ("none", [])
        return state == "00000" and not (writes and lines[-1:] and lines[-1].endswith(" 0")), writes
    def prepare(self, s, case):
        # the row is seen just if the branch commits: so an outcome that comes again is acknowledged as the first time
        gid = self.gid(case)
        if s.is_own: self.rollback(s, case); return case in self.prepared()
        _, lines = s.run(f"INSERT INTO rstar_ended VALUES ('{gid}', 'commit')\\; PREPARE TRANSACTION '{gid}'")
        if lines == ["INSERT 0 1", "PREPARE TRANSACTION"]: self.free.append(s); return True
        # Anything else says nothing for sure: of a failed transaction the tag is ROLLBACK and there is no error; and if the
        # server goes down after the promise a FATAL comes after the tag. So the session is ended, and then it is looked.
        self.end_sessions(f"pid = {s.pid}")
        return case in self.prepared()
    def rollback(self, s, case):
        if s.run("ROLLBACK")[0] == "00000": self.free.append(s)
    # an outcome
    def end(self, case, how):
        """True: it has ended so now. None: there is none. False: it is not known, or not now."""
        verb = "COMMIT" if how == "commit" else "ROLLBACK"
        state, _ = self.run(f"{verb} PREPARED '{self.gid(case)}'")
        if state == "00000" and how == "abort" and case[0] == "c":
            self.must(f"INSERT INTO rstar_ended VALUES ('{self.gid(case)}', 'abort') ON CONFLICT DO NOTHING")
        return True if state == "00000" else None if state == "42704" else False

if __name__ == "__main__": run(__doc__, lambda a, statements: Postgres(a.name, a.me, statements, a.database, a.wait))
