"""What the leaves over SQL have in common: their arguments, sessions that are used again, the rows that they remember by, and
what a work is: a statement of the file WORKS (money.works shows one), or of nothing.

A line of WORKS is a name and one statement, in which {key} and {value} are what the work has. `put KEY VALUE`, `get KEY` and
`del KEY` are the statements put, get and del; KEY may be NAME/KEY, which is the statement NAME. `get` is to read. A work that
changes no row, whose statement fails, or which WORKS does not have is refused: its branch is rolled back, and votes NO."""
import argparse, re, sys
from pathlib import Path
from leaf import Gone, Leaf, serve

def run(doc, make, *more):
    """Serves the leaf whose database `make` gives of the arguments."""
    parser = argparse.ArgumentParser(description=doc, formatter_class=argparse.RawDescriptionHelpFormatter)
    parser.add_argument("name", metavar="NAME", help="of the tree: it keeps two trees over one database apart")
    parser.add_argument("me", metavar="ME", type=int, help="the number of this process")
    parser.add_argument("parent", metavar="PARENT", type=int, help="its parent's")
    parser.add_argument("database", metavar="DATABASE")
    for word, says in more: parser.add_argument(word.lower(), metavar=word, help=says)
    parser.add_argument("--works", metavar="WORKS", default=Path(__file__).with_name("money.works"), help="statements")
    for word, after, says in (("--ask", 5.0, "after which who is in doubt asks again"),
                              ("--idle", 600.0, "without a word, after which a branch at work frees its locks, and votes NO"),
                              ("--wait", 0.5, "that a work waits for a lock at most")):
        parser.add_argument(word, metavar="SECONDS", type=float, default=after, help=f"{says} ({after})")
    a = parser.parse_args()
    # the name is in statements, and 23 letters of it in an XID; a sign that a pattern knows would match another tree's
    if not re.fullmatch(r"[A-Za-z][A-Za-z0-9]{0,22}", a.name): parser.error("NAME is 1 to 23 letters and digits, a letter first")
    statements = dict(re.split(r"\s+", line.strip(), maxsplit=1) for line in Path(a.works).read_text().splitlines()
                      if line.strip() and line[0] != "#")
    sys.exit(serve(lambda: Leaf(make(a, statements), a.me, a.parent, a.ask, a.idle)))

class Database:
    """Of a database that speaks SQL. `open` makes a session, `quote` a text of the statement's language."""
    def __init__(self, tree, me, statements):
        self.tree, self.me, self.statements, self.free = tree, me, statements, []
    def take(self):
        try: return self.free.pop()
        except IndexError: return self.open()
    def run(self, sql): s = self.take(); done = s.run(sql); self.free.append(s); return done
    def must(self, sql): s = self.take(); lines = s.must(sql); self.free.append(s); return lines
    def statement(self, words):
        """The statement of a work, and whether it is to write; none where WORKS has none."""
        name, slash, key = words[1].partition("/")
        text = self.statements.get(name if slash else words[0], "")
        parts = {"{key}": key if slash else words[1], "{value}": words[2] if len(words) > 2 else ""}
        return re.sub(r"\{key\}|\{value\}", lambda found: self.quote(parts[found[0]]), text), words[0] != "get"
    # rows
    def gid(self, case): return f"{self.tree}:{case}"
    def cases(self, lines): return [line.split(":", 1)[1] for line in lines]
    def mine(self): return f"gid LIKE '{self.tree}:%@{self.me}.%'"
    def rows(self, what, where): return self.must(f"SELECT {what} FROM {where}")
    def ended(self, case): return (self.rows("how", f"rstar_ended WHERE gid = '{self.gid(case)}'") or [None])[0]
    # an operator's decision
    def decided(self):
        pairs = (line.split(" ") for line in self.rows("concat(gid, ' ', how)", f"rstar_decided WHERE {self.mine()}"))
        return {gid.split(":", 1)[1]: how for gid, how in pairs}
    def untold(self): return self.cases(self.rows("gid", f"rstar_decided WHERE told IS NULL AND {self.mine()} ORDER BY gid"))
    def decide(self, case, how): self.must(f"INSERT INTO rstar_decided VALUES ('{self.gid(case)}', '{how}', NULL)")
    def tell(self, case, how):
        """The first outcome that it was told, now or before."""
        self.must(f"UPDATE rstar_decided SET told = coalesce(told, '{how}') WHERE gid = '{self.gid(case)}'")
        return self.rows("told", f"rstar_decided WHERE gid = '{self.gid(case)}'")[0]
    def forget(self, case): self.must(f"DELETE FROM rstar_decided WHERE gid = '{self.gid(case)}'")
