"""What stands where in a checkout: crates, sources with their items and imports, definitions with theirs.

Used by tools/renames/apply, tools/renames/check and tools/renames/twice. Sources are read by their tokens: strings and comments are never names.
"""
import re
import subprocess
from pathlib import Path

ANTT_NAME = r"[^\s(){}.;,@\"«»]+"
RUST_TOKEN = re.compile(
    r"(?P<comment>//[^\n]*|/\*.*?\*/)"
    r"|(?P<string>b?r(?P<hash>#*)\".*?\"(?P=hash)|b?\"(?:\\.|[^\"\\])*\"|b?'(?:\\(?:x[0-9a-fA-F]{2}|u\{[^}]*\}|.)|[^\\'])')"
    r"|(?P<life>'[A-Za-z_]\w*)"
    r"|(?P<word>(?:r#)?[A-Za-z_]\w*)"
    r"|(?P<number>\d[\w]*(?:\.\d[\w]*)?)"
    r"|(?P<mark>::|->|=>|[^\s\w])", re.S)
ANTT_TOKEN = re.compile(
    r"(?P<comment>--[^\n]*|\{-.*?-\})"
    r"|(?P<string>\"(?:\\.|[^\"\\\n])*\")"
    r"|(?P<escaped>«[^»]*»)"
    r"|(?P<word>" + ANTT_NAME + r")"
    r"|(?P<mark>[(){}.;,@])", re.S)


class Token:
    __slots__ = ("kind", "text", "start", "end")

    def __init__(self, kind, text, start, end):
        self.kind, self.text, self.start, self.end = kind, text, start, end

    def __repr__(self):
        return f"{self.kind}:{self.text}@{self.start}"


def antt_tokens(text, start=0, end=None):
    """The tokens of definitions or of a clause. A comment `--` begins a name only at its begin."""
    return [Token(it.lastgroup, it[0], it.start(), it.end()) for it in ANTT_TOKEN.finditer(text, start, len(text) if end is None else end)]


def rust_tokens(text):
    return [Token("string" if it["string"] is not None else it.lastgroup, it[0], it.start(), it.end()) for it in RUST_TOKEN.finditer(text)]


class Source:
    """A .rt file, parted: tokens of code, and regions of antt (clauses, ghost members)."""

    def __init__(self, path, text):
        self.path, self.text = path, text
        self.tokens = rust_tokens(text)
        self.code, self.regions, self.uses, self.ghosts, self.attributes = [], [], [], [], []
        self.split()

    def split(self):
        tokens, at = [t for t in self.tokens if t.kind != "comment"], 0
        self.all = tokens
        while at < len(tokens):
            token = tokens[at]
            if token.kind == "word" and token.text in ("requires", "ensures"):
                after = at + 1
                if after < len(tokens) and tokens[after].text == "*":
                    after += 1
                if after < len(tokens) and tokens[after].kind == "word":
                    after += 1
                if after < len(tokens) and tokens[after].text == "{":
                    at = self.region(tokens, after)
                    continue
            if token.kind == "word" and token.text == "ghost":
                if at + 1 < len(tokens) and tokens[at + 1].text == "use":
                    end = at
                    while tokens[end].text != ";":
                        end += 1
                    self.ghosts.append((tokens[at].start, tokens[end].end))
                    at = end + 1
                    continue
                # ghost NAME: { TYPE } = { TERM };  ghost NAME = { TERM };  ghost NAME: { FACT } by { PROOF },
                after = at + 1
                if after < len(tokens) and tokens[after].kind == "word":
                    after += 1
                    if after < len(tokens) and tokens[after].text in (":", "="):
                        while after < len(tokens) and tokens[after].text in (":", "=", "by"):
                            if tokens[after + 1].text != "{":
                                break
                            after = self.region(tokens, after + 1)
                        at = after
                        continue
            self.code.append(token)
            at += 1

    def region(self, tokens, at):
        """The clause whose brace is tokens[at]: its text; gives the token after it."""
        depth, begin = 0, tokens[at].end
        # within a clause the words are those of antt, but its braces are counted alike
        for it in ANTT_TOKEN.finditer(self.text, tokens[at].start):
            if it[0] in ("{", "}"):
                depth += 1 if it[0] == "{" else -1
                if depth == 0:
                    self.regions.append((begin, it.start()))
                    while at < len(tokens) and tokens[at].start <= it.start():
                        at += 1
                    return at
        raise ValueError(f"{self.path}: a clause is not closed")


GHOST_USE = re.compile(r"use\s+(?P<path>[^\s{;]+?)(?:\.\{(?P<names>[^}]*)\}|\s+as\s+(?P<alias>[^\s;]+))?\s*(?:;|$)", re.S)
ANTT_USE = re.compile(r"^(?P<indent>[ \t]*)(?P<pub>pub )?use (?P<path>[^\s{]+?)(?:\.\{(?P<names>[^}]*)\}| as (?P<alias>\S+))?[ \t]*$", re.M)


def split_names(names):
    """[(name, alias or None)] of `A, B as C`."""
    found = []
    for part in names.split(","):
        words = part.split()
        if words:
            found.append((words[0], words[2] if len(words) == 3 and words[1] == "as" else None))
    return found


class Import:
    def __init__(self, start, end, path, names, alias, public):
        self.start, self.end, self.path, self.names, self.alias, self.public = start, end, path, names, alias, public


def antt_imports(text):
    found = []
    for it in ANTT_USE.finditer(text):
        names = None if it["names"] is None else split_names(it["names"])
        found.append(Import(it.start() + len(it["indent"]), it.end(), it["path"], names, it["alias"], bool(it["pub"])))
    return found


def ghost_imports(source):
    found = []
    for start, end in source.ghosts:
        it = GHOST_USE.search(source.text, start, end)
        names = None if it["names"] is None else split_names(it["names"])
        found.append(Import(start, end, it["path"], names, it["alias"], False))
    return found


DECLARED = re.compile(r"^(?P<indent>\s*)(?P<marks>(?:pub |abbrev |unfoldable |pattern |axiom |record |data |mutual |ruleset |infixl \d+ |infixr \d+ |infix \d+ )*)(?P<name>"
                      + ANTT_NAME + r")(?=\s|$)", re.M)


class Definitions:
    """An .antt file: its imports, and the names that it declares."""

    def __init__(self, path, text):
        self.path, self.text = path, text
        self.imports = antt_imports(text)
        self.declared, self.public = {}, {}
        spans = [(it.start, it.end) for it in self.imports]
        inside = set()
        for start, end in spans:
            inside.add(text.rfind("\n", 0, start) + 1)
        for it in DECLARED.finditer(text):
            if it["name"].startswith("--") or it.start() in inside or it["name"] in ("where", "use", "mod", "module", "open", "=", "|"):
                continue
            self.declared.setdefault(it["name"], it.start("name"))
            if "pub" in it["marks"].split():
                self.public.setdefault(it["name"], it.start("name"))


def antt_module(path):
    parts = path.split("/")
    assert parts[0] == "crates"
    inner = parts[2:]
    inner[-1] = inner[-1][:-len(".antt")]
    if inner[-1] == "Lib":
        inner = inner[:-1]
    return ".".join(["Rattle", parts[1]] + inner)


class Checkout:
    def __init__(self, top):
        self.top = Path(top)
        names = subprocess.run(["git", "-C", str(top), "ls-files", "-z"], check=True, capture_output=True, text=True).stdout
        self.files = sorted(it for it in names.split("\0") if it and (self.top / it).is_file())
        self.texts = {}
        self.lines = []
        self.crates = {}
        for line in (self.top / "crates.txt").read_text(encoding="utf-8").split("\n"):
            it = re.match(r"([a-z]\w*)( [^:#]*)?:([^#]*)(#.*)?$", line)
            if it:
                self.crates[it[1]] = it[3].split()

    def text(self, path):
        if path not in self.texts:
            with open(self.top / path, encoding="utf-8", newline="") as file:
                self.texts[path] = file.read()
        return self.texts[path]

    def sources(self):
        return [it for it in self.files if re.fullmatch(r"crates/\w+/src/.*\.rt", it)]

    def definitions(self):
        return [it for it in self.files if re.fullmatch(r"crates/\w+/(specs|proofs)/.*\.antt", it)]

    def passed_on(self):
        """Modules that a folder's Lib.antt passes on by another name: {path: the module}."""
        if not hasattr(self, "passed"):
            self.passed = {}
            for path in self.definitions():
                if path.endswith("/Lib.antt"):
                    for it in antt_imports(self.text(path)):
                        if it.public and it.names is None:
                            self.passed[f"{antt_module(path)}.{it.alias or it.path.split('.')[-1]}"] = it.path
        return self.passed


ITEM = {"struct", "enum", "trait", "type", "fn", "const", "static", "union", "mod"}


class Module:
    """A file of Rust: its items, its imports, by tokens."""

    def __init__(self, crate, path, source):
        self.crate, self.source = crate, source
        inner = path.split("/")[3:]
        inner[-1] = inner[-1][:-len(".rt")]
        if inner[-1] in ("lib", "main", "mod"):
            inner = inner[:-1]
        self.path, self.file = tuple(inner), path
        self.items, self.methods, self.modules, self.imports, self.variants, self.public = {}, [], {}, [], {}, set()
        self.read()

    def read(self):
        code, at, depth = self.source.code, 0, 0
        owners = []            # (depth, owner) of impl and trait blocks
        while at < len(code):
            token = code[at]
            if token.text == "{":
                depth += 1
            elif token.text == "}":
                depth -= 1
                if owners and owners[-1][0] == depth:
                    owners.pop()
            elif token.kind == "word" and token.text == "use" and (at == 0 or code[at - 1].text in (";", "}", "pub", ")", "]", "{")):
                end = at
                while code[end].text != ";":
                    end += 1
                public = at > 0 and code[at - 1].text in ("pub", ")")
                self.use(code, at + 1, end, [], public)
                at = end
            elif token.kind == "word" and token.text == "impl" and (at == 0 or code[at - 1].text in (";", "}", "]", "unsafe", "{")):
                end = at + 1
                angle, words, last = 0, [], None
                while code[end].text != "{" or angle > 0:
                    text = code[end].text
                    if text == "<":
                        angle += 1
                    elif text == ">":
                        angle -= 1
                    elif angle == 0 and code[end].kind == "word":
                        words.append(text)
                    end += 1
                if "where" in words:
                    words = words[:words.index("where")]
                trait = None
                if "for" in words:
                    trait = words[words.index("for") - 1]
                owner = words[-1] if words else "?"
                owners.append((depth, (owner, trait)))
                depth += 1
                at = end
            elif token.kind == "word" and token.text in ITEM and at + 1 < len(code) and code[at + 1].kind == "word" \
                    and (at == 0 or code[at - 1].text not in (".", "::")):
                kind, name = token.text, code[at + 1]
                if kind == "const" and name.text == "fn":
                    at += 1
                    continue
                public = at > 0 and (code[at - 1].text == "pub" or code[at - 1].text in ("const", "unsafe", ")") and "pub" in [t.text for t in code[max(0, at - 5):at]])
                whole = at > 0 and code[at - 1].text == "pub" or (at > 1 and code[at - 1].text in ("const", "unsafe") and code[at - 2].text == "pub")
                inner = bool(owners) and owners[-1][0] < depth
                if kind == "mod":
                    self.modules[name.text] = public
                elif inner:
                    self.methods.append((owners[-1][1], kind, name.text, at + 1, public))
                elif depth == 0:
                    self.items[name.text] = (kind, at + 1)
                    if whole:
                        self.public.add(name.text)
                    if kind == "trait":
                        end = at
                        while code[end].text not in ("{", ";"):
                            end += 1
                        owners.append((depth, (name.text, None)))
                        depth += 1
                        at = end
                    elif kind == "enum":
                        at = self.enum(code, at, name.text) - 1
            at += 1

    def enum(self, code, at, name):
        """The names of an enum's variants; gives the token after its brace."""
        while code[at].text != "{":
            at += 1
        depth, expect, found = 0, True, []
        while True:
            text = code[at].text
            if text in "{([":
                depth += 1
            elif text in "})]":
                depth -= 1
                if depth == 0:
                    break
            elif depth == 1:
                if text == ",":
                    expect = True
                elif code[at].kind == "word" and expect:
                    found.append((code[at].text, at))
                    expect = False
            if text == "{" and depth == 1:
                expect = True
            at += 1
        self.variants[name] = found
        return at + 1

    def use(self, code, at, end, prefix, public):
        """The imports of a use: (path, local name, token of the last name, token of the alias or None, public)."""
        path, last = list(prefix), None
        while at < end:
            token = code[at]
            if token.text == "{":
                depth, begin = 1, at + 1
                part = begin
                at += 1
                while depth:
                    if code[at].text == "{":
                        depth += 1
                    elif code[at].text == "}":
                        depth -= 1
                    if depth == 0 or depth == 1 and code[at].text == ",":
                        if part < at:
                            self.use(code, part, at, path, public)
                        part = at + 1
                    at += 1
                return
            if token.text == "as":
                self.imports.append((tuple(path), code[at + 1].text, last, at + 1, public))
                return
            if token.kind == "word" or token.text == "*":
                path.append((token.text, at))
                last = at
            at += 1
        if last is not None:
            self.imports.append((tuple(path), path[-1][0], last, None, public))


class Rust:
    """All Rust of a checkout: modules by crate and path, and where a name comes from."""

    def __init__(self, checkout):
        self.checkout = checkout
        self.modules = {}
        for path in checkout.sources():
            crate = path.split("/")[1]
            module = Module(crate, path, Source(path, checkout.text(path)))
            self.modules[crate, module.path] = module

    def resolve(self, crate, path, name, seen=()):
        """Where the name that is seen in a module is declared: (crate, path, name), or a module (crate, path), or None."""
        key = (crate, path, name)
        if key in seen:
            return None
        module = self.modules.get((crate, path))
        if module is None:
            return None
        if name in module.items:
            return (crate, path, name)
        if name in module.modules:
            return (crate, path + (name,))
        for parts, local, _, _, _ in module.imports:
            if local == name:
                return self.follow(crate, path, [word for word, _ in parts], seen + (key,))
        return None

    def follow(self, crate, path, words, seen=()):
        """What a path of words means in a module."""
        head, rest = words[0], words[1:]
        if head == "crate":
            place = (crate, ())
        elif head == "self":
            place = (crate, path)
        elif head == "super":
            place = (crate, path[:-1])
        else:
            place = None if (crate, path, head) in seen else self.resolve(crate, path, head, seen)
            if place is None:
                if head in self.checkout.crates:
                    place = (head, ())
                else:
                    return None
        for number, word in enumerate(rest):
            if len(place) == 3:
                return place if number == len(rest) - 0 else place + ("inner", word)
            place = self.resolve(place[0], place[1], word, seen)
            if place is None:
                return None
            if len(place) > 3:
                return place
        return place
