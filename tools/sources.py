"""Reads the items of the crates' sources: what each module declares and re-exports, with
docstrings, signatures, contract clauses and ghost members. Bodies are skipped."""
import functools
import re
import sys
from dataclasses import dataclass, field
from pathlib import Path

ROOT = Path(__file__).resolve().parent.parent
WORD = re.compile(r"[A-Za-z_][A-Za-z0-9_]*")
SPACE = re.compile(r"\s+")
CLOSING = {"{": "}", "(": ")", "[": "]"}


@dataclass
class Item:
    """A declared item. `kind` is fn, struct, enum, trait, type, const, static, impl, mod or use.
    A clause is a kind, a name and a text. `ghost_texts` has the texts of the ghost members, and
    `ghost_uses` the paths that their names and those of the clauses stand for."""
    kind: str
    name: str
    signature: str = ""
    doc: str = ""
    public: bool = False
    derives: list = field(default_factory=list)
    clauses: list = field(default_factory=list)
    members: list = field(default_factory=list)
    ghosts: list = field(default_factory=list)
    ghost_texts: list = field(default_factory=list)
    ghost_uses: dict = field(default_factory=dict)
    # The whole docstring, and where the item is declared: the file below the repository and the line.
    docs: list = field(default_factory=list)
    place: tuple = ()


class Module:
    """A module: its own items, the modules in it, and what its `use` lines name."""

    def __init__(self, crate, path, doc):
        self.crate, self.path, self.doc = crate, path, doc
        self.items, self.modules, self.uses, self.impls = {}, {}, {}, []
        self.ghost_uses = {}
        self.public_uses = set()
        self.public_modules = set()


class Scanner:
    """A position in a source text."""

    def __init__(self, text, file=""):
        self.text, self.at, self.file = text, 0, file
        self.docs, self.inner, self.attributes = [], [], []

    def skip(self):
        """Goes past blanks, comments and attributes, and keeps docstrings and attributes."""
        self.docs, self.attributes = [], []
        while self.at < len(self.text):
            rest = self.text[self.at:self.at + 4]
            if rest[0].isspace():
                self.at += 1
            elif rest.startswith("/*"):
                self.remark()
            elif rest.startswith("//"):
                line = self.line()
                if line.startswith("//!"):
                    self.inner.append(line[3:].strip())
                elif line.startswith("///"):
                    self.docs.append(line[3:].strip())
            elif rest.startswith("#"):
                start = self.at
                self.at = self.text.index("[", self.at)
                self.balanced()
                self.attributes.append(self.text[start:self.at])
            else:
                return True
        return False

    def place(self):
        """The file and the number of the line at the position."""
        return self.file, self.text.count("\n", 0, self.at) + 1

    def line(self):
        end = self.text.find("\n", self.at)
        end = len(self.text) if end < 0 else end
        line, self.at = self.text[self.at:end], end
        return line

    def word(self):
        """The word at the position, which stays where it is."""
        found = WORD.match(self.text, self.at)
        return found.group() if found else ""

    def take(self, word):
        if self.word() != word:
            return False
        self.at += len(word)
        self.blanks()
        return True

    def blanks(self):
        while self.at < len(self.text) and self.text[self.at].isspace():
            self.at += 1

    def remark(self):
        """Goes past a comment between marks, in which others may stand."""
        depth = 0
        for mark in re.compile(r"/\*|\*/").finditer(self.text, self.at):
            depth += 1 if mark[0] == "/*" else -1
            if depth == 0:
                self.at = mark.end()
                return
        raise ValueError("a comment doesn't end")

    def step(self):
        """Goes past one character, or past a whole text, character literal or comment."""
        text, at = self.text, self.at
        if text.startswith("//", at):
            self.line()
        elif text.startswith("/*", at):
            self.remark()
        elif raw := re.compile(r'b?r(#*)"').match(text, at):
            self.at = text.index(f'"{raw[1]}', raw.end()) + 1 + len(raw[1])
        elif text[at] == '"':
            self.at += 1
            while text[self.at] != '"':
                self.at += 2 if text[self.at] == "\\" else 1
            self.at += 1
        else:
            literal = re.compile(r"b?'(\\.[^']*|[^'\\])'").match(text, at)
            self.at = literal.end() if literal else at + 1

    def balanced(self):
        """Goes past the bracketed text that begins here."""
        closing = CLOSING[self.text[self.at]]
        self.at += 1
        while self.text[self.at] != closing:
            if self.text[self.at] in CLOSING:
                self.balanced()
            else:
                self.step()
        self.at += 1

    def until(self, ends, words=()):
        """The text up to a character of `ends`, or to a word of `words`, outside of brackets."""
        start, depth = self.at, 0
        while self.at < len(self.text):
            here = self.text[self.at]
            if here in ends and (here != "," or depth == 0):
                break
            if here in "<>" and self.text[self.at - 1] not in "-=":
                depth += 1 if here == "<" else -1
            if here in CLOSING:
                self.balanced()
            elif re.compile(r'b?r#*"').match(self.text, self.at):
                self.step()
            elif word := self.word():
                if word in words:
                    break
                self.at += len(word)
            else:
                self.step()
        return shortened(self.text[start:self.at])


def shortened(text):
    """A signature in one line, without comments."""
    text = re.sub(r"//[^\n]*|/\*.*?\*/", "", text, flags=re.S)
    text = SPACE.sub(" ", text).strip().removesuffix(",")
    text = re.sub(r"([(\[<]) ", r"\1", text)
    return re.sub(r",? ([)\]>])(?!=)", lambda m: m.group(1) if m.group(1) != ">" else " >", text)


def first_sentence(lines):
    """The first sentence of a docstring."""
    paragraph = []
    for line in lines:
        if not line:
            break
        paragraph.append(line)
    text = " ".join(paragraph)
    found = re.match(r"(.*?\.)(?= [A-Z`|]|$)", text)
    return found.group(1) if found else text


def generic_free(signature):
    """An impl's head without its parameters, whatever brackets are in them."""
    if not signature.startswith("impl<"):
        return signature
    depth = 0
    for at, c in enumerate(signature):
        depth += (c == "<") - (c == ">" and signature[at - 1] not in "-=")
        if c == ">" and depth == 0:
            return "impl " + signature[at + 1:].strip()
    return signature


def trait_and_type(block):
    """The trait that an impl is for, empty for a type's own functions, and the type."""
    head = generic_free(block.signature).removeprefix("impl ").split(" where ")[0]
    trait, _, target = head.rpartition(" for ")
    return trait, target.strip()


def use_tree(text, prefix=()):
    """The pairs of a name and the path that it stands for, of a `use` line."""
    text = text.strip()
    brace = text.find("{")
    if brace >= 0 and text.endswith("}"):
        front = [p for p in text[:brace].split("::") if p]
        depth, part, parts = 0, "", []
        for c in text[brace + 1:-1]:
            depth += (c == "{") - (c == "}")
            if c == "," and depth == 0:
                parts.append(part)
                part = ""
            else:
                part += c
        parts.append(part)
        return [pair for p in parts if p.strip() for pair in use_tree(p, (*prefix, *front))]
    path, _, name = text.partition(" as ")
    path = [*prefix, *path.strip().split("::")]
    if path[-1] == "self":
        path.pop()
    return [(name.strip() or path[-1], path)]


class Reader:
    """Reads the modules of a crate."""

    def __init__(self, crate):
        self.crate = crate
        self.src = ROOT / "crates" / crate / "src"

    def crate_module(self):
        file = self.src / "lib.rt"
        return self.file_module(file if file.exists() else self.src / "main.rt", ())

    def file_module(self, file, path):
        scanner = Scanner(file.read_text(), file.relative_to(ROOT))
        module = Module(self.crate, path, "")
        self.items(scanner, module)
        module.doc = first_sentence(scanner.inner)
        return module

    def items(self, scanner, module, end=None):
        """Reads items up to `end`, or to the end of the text."""
        file, line = scanner.place()
        try:
            while scanner.skip():
                file, line = scanner.place()
                if scanner.text[scanner.at] == end:
                    return
                self.item(scanner, module)
        except (AttributeError, IndexError, KeyError, TypeError, ValueError) as error:
            sys.exit(f"{file}:{line}: the script can't read this, or what is behind it: {error}")

    def item(self, scanner, module):
        docs, attributes = scanner.docs, scanner.attributes
        if "macro_rules" == scanner.word():
            scanner.until("{")
            scanner.balanced()
            return
        public = self.visibility(scanner)
        self.modifiers(scanner)
        kind = scanner.word()
        if kind == "ghost":
            self.ghost(scanner, module)
        elif kind == "use":
            scanner.take("use")
            for name, path in use_tree(scanner.until(";")):
                module.uses[name] = path
                if public:
                    module.public_uses.add(name)
            scanner.at += 1
        elif kind == "mod":
            self.module(scanner, module, docs, public)
        elif kind == "impl":
            module.impls.append(self.block(scanner, docs, attributes, False))
        else:
            item = self.declared(scanner, docs, attributes, public)
            if not any("cfg(test)" in a or "#[test]" in a for a in attributes):
                module.items[item.name] = item

    def modifiers(self, scanner):
        """Goes past the words before `fn`, `impl` or `trait`."""
        while scanner.word() in ("unsafe", "extern", "const") and self.is_modifier(scanner):
            scanner.take(scanner.word())
            if scanner.text[scanner.at] == '"':  # the "C" of `extern "C"`
                scanner.at = scanner.text.index('"', scanner.at + 1) + 1
                scanner.blanks()

    def is_modifier(self, scanner):
        return re.match(r"\w+ (\"\w+\" )?(fn|impl|trait|unsafe|extern|const)\b",
                        scanner.text[scanner.at:scanner.at + 40])

    def visibility(self, scanner):
        if not scanner.take("pub"):
            return False
        if scanner.text[scanner.at] == "(":
            scanner.balanced()
            scanner.blanks()
            return False
        return True

    def ghost(self, scanner, holder):
        """Goes past a ghost item of a module, type, trait or impl, and returns its name."""
        scanner.take("ghost")
        name = scanner.word()
        if name == "use":
            line = scanner.line().partition(";")[0].removeprefix("use ").replace(".", "::")
            holder.ghost_uses.update((used, ".".join(path)) for used, path in use_tree(line))
            return None
        if scanner.until(";{") and scanner.text[scanner.at] == ";":
            scanner.at += 1
            return name
        while scanner.text[scanner.at] == "{":
            scanner.balanced()
            scanner.until("{;,}\n")
        if scanner.text[scanner.at] in ";,":
            scanner.at += 1
        return name

    def module(self, scanner, module, docs, public):
        scanner.take("mod")
        name = scanner.word()
        scanner.at += len(name)
        scanner.until(";{")
        path = (*module.path, name)
        if scanner.text[scanner.at] == ";":
            scanner.at += 1
            file = self.src.joinpath(*path).with_suffix(".rt")
            made = self.file_module(file, path)
        else:
            scanner.at += 1
            made = Module(self.crate, path, "")
            self.items(scanner, made, "}")
            scanner.at += 1
        made.doc = first_sentence(docs) or made.doc
        module.modules[name] = made
        if public:
            module.public_modules.add(name)

    def declared(self, scanner, docs, attributes, public):
        kind = scanner.word()
        place = scanner.place()
        item = self.declaration(kind, scanner, docs, attributes, public)
        item.docs, item.place = docs, place
        return item

    def declaration(self, kind, scanner, docs, attributes, public):
        if kind == "fn":
            return self.function(scanner, docs, public)
        if kind == "trait":
            return self.block(scanner, docs, attributes, public)
        derives = [d for a in attributes for d in re.findall(r"\w+", a.partition("derive(")[2])]
        if kind in ("struct", "enum"):
            signature = scanner.until("{;(", ())
            item = Item(kind, signature.split()[1].split("<")[0], signature, first_sentence(docs),
                        public, derives)
            if scanner.text[scanner.at] == "(":
                item.signature += self.tuple(scanner)
                scanner.until(";")
            elif scanner.text[scanner.at] == "{":
                scanner.at += 1
                self.fields(scanner, item)
            scanner.at += 1
            return item
        signature = scanner.until(";")
        scanner.at += 1
        name = re.match(r"\w+ (\w+)", signature)
        item = Item(kind, name.group(1), signature, first_sentence(docs), public)
        if kind in ("const", "static") and len(signature) > 70:
            item.signature = signature.partition(" =")[0]
        return item

    def tuple(self, scanner):
        start = scanner.at
        scanner.balanced()
        fields = shortened(scanner.text[start + 1:scanner.at - 1])
        return f"({fields})" if "pub" in fields or not fields else "(..)"

    def fields(self, scanner, item):
        """The fields of a struct, or the variants of an enum."""
        while scanner.skip() and scanner.text[scanner.at] != "}":
            docs = scanner.docs
            if scanner.word() == "ghost":
                self.ghost(scanner, item)
                continue
            public = self.visibility(scanner) or item.kind == "enum"
            text = scanner.until(",}") if item.kind == "struct" else self.variant(scanner)
            name = WORD.match(text).group()
            item.members.append(Item("field", name, text, first_sentence(docs), public, docs=docs))
            if scanner.text[scanner.at] == ",":
                scanner.at += 1

    def variant(self, scanner):
        return shortened(re.sub(r"///[^\n]*", "", scanner.until(",}")))

    def function(self, scanner, docs, public):
        signature = scanner.until("{;", ("ensures", "requires"))
        name = re.match(r"fn (\w+)", signature).group(1)
        item = Item("fn", name, signature, first_sentence(docs), public)
        while scanner.word() in ("ensures", "requires"):
            clause = scanner.word()
            scanner.at += len(clause)
            label = scanner.until("{").lstrip("* ")
            start = scanner.at
            scanner.balanced()
            item.clauses.append((clause, label, scanner.text[start:scanner.at]))
            while scanner.skip() and scanner.text[scanner.at] == ",":
                scanner.at += 1
        if scanner.text[scanner.at] == "{":
            scanner.balanced()
        else:
            scanner.at += 1
        return item

    def block(self, scanner, docs, attributes, public):
        """A trait or an impl, with its functions."""
        signature = scanner.until("{")
        kind = signature.split()[0].split("<")[0]
        name = re.match(r"trait (\w+)", signature)
        item = Item(kind, name.group(1) if name else "", signature, first_sentence(docs), public)
        scanner.at += 1
        while scanner.skip() and scanner.text[scanner.at] != "}":
            docs = scanner.docs
            if scanner.word() == "ghost":
                start = scanner.at
                item.ghosts.append(self.ghost(scanner, item))
                item.ghost_texts.append(scanner.text[start:scanner.at])
                continue
            if scanner.word() not in ("pub", "fn", "const", "type", "unsafe", "extern"):
                scanner.until(";}")
                scanner.at += scanner.text[scanner.at] == ";"
                continue
            public = self.visibility(scanner) or kind == "trait"
            self.modifiers(scanner)
            item.members.append(self.declared(scanner, docs, scanner.attributes, public))
        scanner.at += 1
        return item


def crate_lines(text):
    """The lines of a crates.txt that name a crate, by that name."""
    lines = {}
    for line in text.split("\n"):
        words = line.partition("#")[0].partition(":")[0].split()
        if words:
            lines[words[0]] = line.strip()
    return lines


@functools.cache
def crates():
    """The crates of the repository, each as its module. They are read once."""
    names = crate_lines((ROOT / "crates.txt").read_text())
    return {name: Reader(name).crate_module() for name in names}
