"""Whether a checkout after tools/renames/apply says word for word what it said before, if each name is followed to where it comes from.

Used by tools/renames/check --old. Names that are imported, declared or resolved are compared by their owner and name, all other words
as they are written; strings byte for byte; files that have no names byte for byte.
"""
import importlib.machinery
import importlib.util
import re
from pathlib import Path

from reading import Checkout, Definitions, Module, Source, antt_imports, antt_module, antt_tokens, ghost_imports

HERE = Path(__file__).resolve().parent


def load(name):
    loader = importlib.machinery.SourceFileLoader(name, str(HERE / name))
    module = importlib.util.module_from_spec(importlib.util.spec_from_loader(name, loader))
    loader.exec_module(module)
    return module


class Side:
    """A checkout, and what its names are called after the renaming (of the new one: what they are)."""

    def __init__(self, checkout, rust, antt, renamer=None):
        self.checkout, self.rust, self.antt, self.renamer, self.cache = checkout, rust, antt, renamer, {}

    def definitions(self, module):
        if module not in self.cache:
            self.cache[module] = Definitions(self.antt[module], self.checkout.text(self.antt[module]))
        return self.cache[module]

    def owner(self, path, name):
        """Where a name comes from: through `pub use`."""
        if path in self.antt:
            found = self.definitions(path)
            if name not in found.declared:
                for it in found.imports:
                    for old, alias in it.names if it.public and it.names else ():
                        if (alias or old) == name:
                            return self.owner(it.path, old)
        return path, name

    def module(self, path):
        return self.renamer.module_path(path) if self.renamer else path

    def name(self, path, name):
        path, name = self.owner(path, name)
        if self.renamer:
            target = self.renamer.cut[path, name][0] if (path, name) in self.renamer.cut else self.renamer.module_path(path)
            new = self.renamer.new_name(path, name)
            if new == name and "-" in name and path.split(".")[-1] in ("Answers", "Invariants", "Proof", "Goals", "Given"):
                new = "-".join(self.function(path.split(".")[1], word) for word in name.split("-"))
            return target, new
        return path, name

    def place(self, place):
        if place is None:
            return None
        if not self.renamer:
            return place
        if len(place) == 2:
            return self.renamer.crate(place[0]), self.renamer.files.get(place, place[1])
        if len(place) == 3:
            crate, path = place[:2]
            return self.renamer.crate(crate), self.renamer.files.get((crate, path), path), self.renamer.items.get(place, self.function(crate, place[2]))
        return self.place(place[:3]) + tuple(place[3:4]) + (self.renamer.methods[place[4]][2] if place[4] in self.renamer.methods
                                                            else self.function(place[0], place[4]),)

    def locals(self, imports, declared, module):
        names, modules = {}, {}
        for it in imports:
            if it.names is None:
                local = it.alias or it.path.split(".")[-1]
                path = self.checkout.passed_on().get(it.path, it.path)
                modules[local] = path
                names.setdefault(local, ("module", self.module(path)))
            else:
                for name, alias in it.names:
                    names[alias or name] = self.name(self.checkout.passed_on().get(it.path, it.path), name)
        for name in declared:
            names[name] = self.name(module, name)
        return names, modules

    def function(self, crate, word):
        """What a function is called that a crate's line of the table names."""
        return self.renamer.named.get((crate, word), word) if self.renamer else word

    def goal(self, crate, token, before):
        """A goal, or what a call gave, after the functions in it."""
        words = token.text.split("-")
        if len(words) > 1 or before in ("c", "g", "goal"):
            return "-".join(self.function(crate, word) for word in words)
        return token.text

    def words(self, tokens, names, modules, goals=None):
        out, previous, before, path, inner = [], None, None, None, False
        for token in tokens:
            if token.kind == "comment":
                continue
            if path is not None:
                if token.text == "." or previous.text == ".":
                    path += token.text
                    previous = token
                    continue
                out.append(self.written_out(path))
                path = None
            elif token.text == "Rattle" and not (previous is not None and previous.text == "."):
                path, previous = "Rattle", token
                continue
            dotted = previous is not None and previous.text == "." and previous.end == token.start
            if token.kind == "word" and dotted and before is not None and before.text in modules and not inner:
                out.append(self.name(modules[before.text], token.text))
            elif token.kind == "word" and not dotted and token.text in names:
                out.append(names[token.text])
            elif goals is not None and token.kind == "word":
                out.append(self.goal(goals, token, before.text if dotted and before is not None else None))
            else:
                out.append(token.text)
            if not dotted and token.text != ".":
                inner = False
            elif dotted:
                inner = True
            before, previous = (previous, token)
        if path is not None:
            out.append(self.written_out(path))
        return out

    def written_out(self, path):
        """A name that is written with its whole path."""
        parts = path.split(".")
        for length in range(len(parts), 2, -1):
            module = ".".join(parts[:length])
            if module in self.antt and length < len(parts):
                return self.name(module, parts[length]), parts[length + 1:]
        return self.module(path)

    def antt_words(self, path, text, skip=(), only=None):
        found = Definitions(path, text)
        module = antt_module(path)
        top = [name for name, at in found.declared.items() if name in found.public or found.text.rfind("\n", 0, at) == at - 1 or at == 0
               or not found.text[found.text.rfind("\n", 0, at) + 1:at].startswith(" ")]
        top += [name for name in found.declared if self.is_of_table(module, name)]
        names, modules = self.locals(found.imports, top, module)
        spans = [(it.start, it.end) for it in found.imports] + [it.span() for it in re.finditer(r"^(?:pub )?mod \S+$", text, re.M)]
        spans += skip
        goals = path.split("/")[1] if re.search(r"/proofs/.*/(Answers|Invariants|Proof)\.antt$", path) else None
        return self.words([t for t in antt_tokens(text) if not any(a <= t.start < b for a, b in spans)
                           and (only is None or only[0] <= t.start < only[1])], names, modules, goals)

    def is_of_table(self, module, name):
        return (module, name) in (self.renamer.names if self.renamer else self.given)

    def rust_words(self, path, text):
        crate = path.split("/")[1]
        source = Source(path, text)
        module = Module(crate, path, source)
        kept = self.rust.modules[crate, module.path]
        self.rust.modules[crate, module.path] = module
        try:
            return laid_out(self.code_words(source, module)) + self.clause_words(source, module, text)
        finally:
            self.rust.modules[crate, module.path] = kept

    def code_words(self, source, module):
        code, out, skip = source.code, [], set()
        spans = []
        at = 0
        while at < len(code):
            if code[at].text == "use" and (at == 0 or code[at - 1].text in (";", "}", "pub", ")", "]", "{")):
                end = at
                while code[end].text != ";":
                    end += 1
                spans.append((at, end + 1))
                at = end
            at += 1
        for begin, end in spans:
            skip |= set(range(begin, end))
        variants = {place for found in module.variants.values() for _, place in found}
        at, path = 0, []
        while at < len(code):
            token = code[at]
            if at in skip:
                at += 1
                continue
            if token.kind != "word":
                out.append(token.text)
                at += 1
                continue
            before = code[at - 1].text if at else ""
            if before == "::" and path:
                path = path + [token.text]
            else:
                path = [token.text]
            place = None
            if before != "." and at not in variants and path[0] != "Self":
                if len(path) == 1:
                    place = self.rust.resolve(module.crate, module.path, path[0]) if path[0] not in ("crate", "self", "super") else None
                    if place is None and path[0] in self.checkout.crates and at + 1 < len(code) and code[at + 1].text == "::":
                        place = (path[0], ())
                elif len(path) > 1 and path[1] in ("specs", "proofs") and (path[0] == "crate" or path[0] in self.checkout.crates):
                    owner = module.crate if path[0] == "crate" else path[0]
                    full = ".".join(["Rattle", owner] + path[1:])
                    if any(it == full or it.startswith(full + ".") for it in self.antt):
                        place = None
                        out.append(self.module(full))
                    else:
                        out.append(self.name(".".join(["Rattle", owner] + path[1:-1]), path[-1]))
                    at += 1
                    continue
                else:
                    place = self.rust.follow(module.crate, module.path, path)
            is_local = place is not None and len(place) == 3 and len(path) == 1 and not token.text[0].isupper() \
                and not (at + 1 < len(code) and code[at + 1].text == "(")
            out.append(self.function(module.crate, token.text) if place is None or is_local else self.place(place))
            if not (at + 1 < len(code) and code[at + 1].text == "::"):
                path = []
            at += 1
        return out

    def clause_words(self, source, module, text):
        imports, out = ghost_imports(source), []
        blocks, open_at = [], []
        for token in source.code:
            if token.kind == "mark" and token.text == "{":
                open_at.append(token.start)
            elif token.kind == "mark" and token.text == "}" and open_at:
                blocks.append((open_at.pop(), token.end))
        extents = [min([b for b in blocks if b[0] < it.start < b[1]], key=lambda b: b[1] - b[0], default=(0, len(text))) for it in imports]
        seen = {}
        for local in [it[1] for it in module.imports] + list(module.items):
            place = self.rust.resolve(module.crate, module.path, local)
            if place is not None and len(place) == 3 and local[0].isupper():
                seen[local] = ("rust", self.place(place))
        for begin, end in source.regions:
            inner = sorted([(b[1] - b[0], it) for b, it in zip(extents, imports) if b[0] <= begin < b[1]], key=lambda pair: -pair[0])
            names, modules = self.locals([it for _, it in inner], (), None)
            names = {**seen, **names}
            out += ["{"] + self.words(antt_tokens(text, begin, end), names, modules) + ["}"]
        return out


def laid_out(words):
    """Without the commas that the layout sets before a closing bracket."""
    return [word for at, word in enumerate(words) if not (word == "," and at + 1 < len(words) and words[at + 1] in (")", "}", "]", ">"))]


def first_difference(old, new):
    for at, (one, other) in enumerate(zip(old, new)):
        if one != other:
            return at, one, other
    return min(len(old), len(new)), "(end)", "(end)"


def mutated(checkout, path):
    """The file that an edit leaves."""
    text, target, old = None, None, None
    for line in checkout.text(path).split("\n"):
        if line.startswith("file: "):
            now = f"crates/{path.split('/')[1]}/{line[6:].strip()}"
            if now != target:
                target, text = now, checkout.text(now)
        elif line.startswith("old:"):
            old = line[5:]
        elif line.startswith("new:"):
            text = text.replace(old, line[5:])
    return target, text


def whole_library(checker, renamer, path, new_path):
    """Whether the root file of a crate that took another in has the modules of both, and passes on what they did."""
    crate = path.split("/")[1]
    old, new = renamer.rust.modules[crate, ()], checker.rust.modules[renamer.crate(crate), ()]
    for name in set(old.modules) - set(new.modules):
        checker.fault(new_path, f"has no mod {name}")
    passed = {local for _, local, _, _, public in new.imports if public}
    for words, local, _, _, public in old.imports:
        place = renamer.rust.follow(crate, (), [word for word, _ in words])
        if public and place is not None and renamer.items.get(place, local) not in passed:
            checker.fault(new_path, f"does not pass {local} on")


def only_passes(text):
    """Whether a file of definitions has nothing but `pub use`."""
    return all(not line or line.startswith(("--", "pub use ", "pub mod ")) for line in text.split("\n"))


def gone(checker, table, apply):
    """Names that the table takes away: crates in any text; types and definitions where they were."""
    for path in checker.checkout.files:
        if path.startswith("renames/") or not (path == "crates.txt" or apply.TEXTS.match(path) or re.search(r"\.(rt|antt|edit)$", path)):
            continue
        text = checker.checkout.text(path)
        code = re.sub(r"\"(?:[^\"\\\n]|\\.)*\"|//[^\n]*", "", text) if path.endswith(".rt") else text
        for old in table.crates:
            if re.search(r"\bRattle\." + old + r"\.|\bcrates/" + old + r"/", text):
                checker.fault(path, f"names the crate {old}, which is gone")
            if path == "crates.txt" and re.search(r"^[^#\n]*\b" + old + r"\b", text, re.M):
                checker.fault(path, f"names the crate {old}, which is gone")
            if path.endswith(".md") and "_" in old and re.search(r"`" + old + r"`", text):
                checker.fault(path, f"names the crate {old}, which is gone")
    crate = lambda name: table.crates.get(name, name)
    for (owner, old), new in table.types.items():
        name, _, inner = owner.partition(":")
        items = [item for module in checker.rust.modules.values() if module.crate == crate(name) for item in module.items]
        if new not in items:
            checker.fault(owner, f"has no type {new}")
        if old in items and (owner, old) not in {(o, n) for (o, _), n in table.types.items()} and not inner:
            checker.fault(owner, f"has a type {old} still")
    for (owner, old), new in table.relations.items():
        parts = owner.split(".")
        found = [module for module in checker.antt if module.split(".")[-1] == parts[-1] or True]
        wanted = [module for module in found if new in checker.definitions(module).public or new in checker.definitions(module).declared]
        if not wanted:
            checker.fault(owner, f"nothing declares {new}")


def compare(checker, old_top, table_path):
    apply = load("apply")
    new = Side(checker.checkout, checker.rust, checker.antt)
    table = apply.Table(table_path)
    gone(checker, table, apply)
    if old_top is None:
        return
    renamer = apply.Renamer(old_top, table)
    new.given = {(renamer.module_path(module), name) for (module, _), name in renamer.names.items()}
    old = Side(renamer.checkout, renamer.rust, renamer.antt, renamer)
    seen = set()
    for path in renamer.checkout.files:
        if path.startswith("renames/"):
            continue
        new_path = renamer.file_path(path)
        seen.add(new_path)
        if path.startswith("crates/") and path.split("/", 2)[2:] == ["src/lib.rt"] and renamer.is_merged(path.split("/")[1]):
            whole_library(checker, renamer, path, new_path)
            continue
        if new_path not in checker.checkout.files:
            if not path.endswith("Lib.antt"):
                checker.fault(path, f"is not there as {new_path}")
            continue
        if re.fullmatch(r"crates/\w+/(specs|proofs)/.*\.antt", path):
            cuts = [(begin, end) for (module, _), (_, begin, end) in renamer.cut.items() if module == antt_module(path)]
            words = old.antt_words(path, renamer.checkout.text(path), cuts), new.antt_words(new_path, checker.checkout.text(new_path))
            for (module, name), (target, begin, end) in renamer.cut.items():
                if target == antt_module(new_path):
                    source = renamer.antt[module]
                    block = old.antt_words(source, renamer.checkout.text(source), (), (begin, end))
                    at = [at for at in range(len(words[1])) if words[1][at:at + len(block)] == block]
                    if len(at) == 1:
                        words = words[0], words[1][:at[0]] + words[1][at[0] + len(block):]
                    else:
                        checker.fault(new_path, f"has not {name} as it was")
        elif re.fullmatch(r"crates/\w+/src/.*\.rt", path):
            words = old.rust_words(path, renamer.checkout.text(path)), new.rust_words(new_path, checker.checkout.text(new_path))
        elif re.fullmatch(r"crates/\w+/(must-fail|refused)/.*\.edit", path):
            one, other = mutated(renamer.checkout, path), mutated(checker.checkout, new_path)
            if one[0].endswith(".rt"):
                words = old.rust_words(*one), new.rust_words(*other)
            else:
                words = old.antt_words(*one), new.antt_words(*other)
        elif path == "crates.txt" or apply.TEXTS.match(path):
            continue
        else:
            if (renamer.checkout.top / path).read_bytes() != (checker.checkout.top / new_path).read_bytes():
                checker.fault(path, "has other bytes")
            continue
        if words[0] != words[1]:
            at, one, other = first_difference(*words)
            one, other = f"{one} {words[0][max(0, at - 4):at + 5]}", f"{other} {words[1][max(0, at - 4):at + 5]}"
            checker.fault(new_path, f"word {at} is {other}, and was {one}")
    had = {renamer.crate(crate) for crate in renamer.checkout.crates}
    for path in checker.checkout.files:
        crate = path.split("/")[1] if path.startswith("crates/") else None
        if crate is not None and crate not in had and (crate, ()) in checker.rust.modules and not checker.rust.modules[crate, ()].items \
                and all(name == crate for name, inner in checker.rust.modules if name == crate and inner != ()):
            continue        # (a crate without code, which passes names on)
        if path not in seen and not path.startswith("renames/") and path.split("/")[1] not in renamer.table.new \
                and not (path.endswith(".antt") and only_passes(checker.checkout.text(path))):
            checker.fault(path, "is new")
