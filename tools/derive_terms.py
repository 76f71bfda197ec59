"""Reads definitions by clauses of .antt files into terms.

A name stands for a variable of its clause, or is the path of what the `use` lines of its file give.
A line of a definition that isn't a part of a clause is an error with its place."""
import functools
import re
from dataclasses import dataclass

from blocks import Wrong
from sources import ROOT
from specs import used_names

# A `--` begins a comment; a name may have points in it, and a text is between quotes.
TOKEN = re.compile(r"""\s+|--[^\n]*|(?P<text>"(?:[^"\\]|\\.)*")|(?P<number>0x[0-9a-f_]+|\d[\d_]*)
    |(?P<name>[^\W\d]\w*(?:\.(?:\w+|«\w+»))*|«\w+»)
    |(?P<field>\.\w+)|(?P<sign>>>=|&&|\|\||==|\+\+|∷|\[\]|[()+\-*/%^,;={}≡×.λ→:])""", re.X)
# The operators from the weakest to the strongest. Those of the first row are read from the right.
LEVELS = [[">>=", "∷", "++"], ["||"], ["&&"], ["=="], ["+", "-"], ["*", "/", "%"], ["^"]]
STOPS = {")", ",", ";", "}", "then", "else", "=", None} | {sign for row in LEVELS for sign in row}
PRELUDE = "Rattle.std.specs.Prelude"


@dataclass(frozen=True)
class Name:
    """A variable, or a path that begins with `Rattle`."""
    text: str


@dataclass(frozen=True)
class Number:
    text: str


@dataclass(frozen=True)
class Text:
    text: str


@dataclass(frozen=True)
class Field:
    of: object
    name: str


@dataclass(frozen=True)
class Call:
    """What a name gives for its arguments. The name of an operator is the operator."""
    head: str
    arguments: tuple


@dataclass(frozen=True)
class If:
    test: object
    then: object
    other: object


@dataclass(frozen=True)
class Lambda:
    names: tuple
    body: object


@dataclass(frozen=True)
class Tuple:
    items: tuple


@dataclass(frozen=True)
class Record:
    pairs: tuple


@dataclass(frozen=True)
class Definition:
    """A definition with its clauses: the patterns of the arguments, and what stands for them."""
    path: str
    clauses: tuple


class Parser:
    """Reads terms from a text. `known` gives the path of a name, and `path` and `line` are where
    the text stands."""

    def __init__(self, text, known, path, line):
        self.known, self.path, self.line, self.at = known, path, line, 0
        self.tokens, place = [], 0
        while place < len(text):
            found = TOKEN.match(text, place)
            if not found:
                raise Wrong(path, line + text.count("\n", 0, place),
                            f"the script can't read this: {text[place:place + 40]!r}")
            if found.lastgroup:
                self.tokens.append((found.lastgroup, found[0], line + text.count("\n", 0, place)))
            place = found.end()

    def peek(self):
        return self.tokens[self.at][1] if self.at < len(self.tokens) else None

    def wrong(self, what):
        line = self.tokens[min(self.at, len(self.tokens) - 1)][2] if self.tokens else self.line
        raise Wrong(self.path, line, f"the script can't read this: {what}")

    def take(self, wanted):
        if self.peek() != wanted:
            self.wrong(f"{wanted} is missing before {self.peek() or 'the end'}")
        self.at += 1

    def whole(self, read):
        """What `read` reads, which is all of the text."""
        term = read()
        if self.peek() is not None:
            self.wrong(self.peek())
        return term

    def term(self, level=0):
        if level == 0 and self.peek() == "λ":
            return self.function()
        if level == len(LEVELS):
            return self.call()
        left = self.term(level + 1)
        while (sign := self.peek()) in LEVELS[level]:
            self.at += 1
            left = Call(sign, (left, self.term(0 if level == 0 else level + 1)))
        return left

    def function(self):
        self.take("λ")
        names = []
        while (kind_text := self.tokens[self.at])[0] == "name":
            names.append(kind_text[1])
            self.at += 1
        if self.peek() != "." and not self.peek().startswith("."):
            self.wrong("a point is missing")
        self.at += 1
        return Lambda(tuple(names), self.term())

    def call(self):
        if self.peek() == "if":
            return self.choice()
        parts = [self.atom()]
        while self.peek() not in STOPS:
            parts.append(self.atom())
        if len(parts) == 1:
            return parts[0]
        if not isinstance(parts[0], Name):
            self.wrong("only a name has arguments")
        return Call(parts[0].text, tuple(parts[1:]))

    def choice(self):
        self.take("if")
        test = self.term()
        self.take("then")
        then = self.term()
        self.take("else")
        return If(test, then, self.term())

    def atom(self):
        if self.at >= len(self.tokens):
            self.wrong("the end")
        kind, text, _ = self.tokens[self.at]
        self.at += 1
        if kind == "name":
            if text == "record":
                return self.record()
            return self.fields(self.named(text))
        if kind == "number":
            return Number(text.replace("_", ""))
        if kind == "text":
            return Text(text)
        if text == "[]":
            return Name("[]")
        if text == "(":
            items = [self.term()]
            while self.peek() == ",":
                self.at += 1
                items.append(self.term())
            self.take(")")
            return self.fields(items[0] if len(items) == 1 else Tuple(tuple(items)))
        self.at -= 1
        return self.wrong(text)

    def record(self):
        self.take("{")
        pairs = []
        while self.peek() != "}":
            name = self.peek()
            self.at += 1
            self.take("=")
            pairs.append((name, self.term()))
            if self.peek() == ";":
                self.at += 1
        self.take("}")
        return Record(tuple(pairs))

    def fields(self, term):
        while self.at < len(self.tokens) and self.tokens[self.at][0] == "field":
            term = Field(term, self.tokens[self.at][1][1:])
            self.at += 1
        return term

    def named(self, text):
        """A name with the fields behind it, each in its place."""
        first, *rest = text.replace("«", "").replace("»", "").split(".")
        path, is_module = self.known(first) or (first, False)
        if rest and is_module:
            path, rest = f"{path}.{rest[0]}", rest[1:]
        term = Name(path)
        for name in rest:
            term = Field(term, name)
        return term

    def pattern(self):
        """A pattern: a name with the patterns of its arguments, or a list."""
        parts = [self.pattern_atom()]
        while self.peek() not in STOPS:
            parts.append(self.pattern_atom())
        left = parts[0]
        if len(parts) > 1:
            left = Call(parts[0].text, tuple(parts[1:]))
        if self.peek() == "∷":
            self.at += 1
            return Call("∷", (left, self.pattern()))
        return left

    def pattern_atom(self):
        if self.peek() == "(":
            self.at += 1
            inner = self.pattern()
            self.take(")")
            return inner
        return self.atom()


@dataclass
class SpecFile:
    """A file of definitions: what its names stand for, and the text of each definition."""
    path: object
    module: str
    uses: dict
    texts: dict

    def known(self, local):
        """Gives the path of a name, and whether a module has it; a name of `local` has none."""
        def find(name):
            if name in local:
                return None
            if name in self.texts:
                return f"{self.module}.{name}", False
            return self.uses.get(name)
        return find


HEAD = re.compile(r"(?:abbrev |unfoldable )*(?:pub )?([^\W\d]\w*) : ")
OTHER = re.compile(r"(?:pub )?(?:use|mod|data|record|open|syntax|module|mutual|ruleset)\b")


@functools.cache
def spec_file(crate, module):
    """The file of a module of specs/, or None."""
    path = ROOT / "crates" / crate / "specs" / f"{module.replace('.', '/')}.antt"
    if not path.exists():
        return None
    made = SpecFile(path, f"Rattle.{crate}.specs.{module}", {}, {})
    current = None
    for number, line in enumerate(path.read_text().split("\n"), 1):
        if re.match(r"(pub )?use ", line):
            is_module = ".{" not in line
            plain = line.replace("«", "").replace("»", "")
            made.uses.update((name, (used, is_module)) for name, used in used_names(plain))
            current = None
        elif OTHER.match(line):
            current = None
        elif found := HEAD.match(line):
            current = made.texts.setdefault(found[1], [])
        elif not line.strip():
            current = None
        elif current is not None:
            current.append((number, line))
    return made


@functools.cache
def definition(path):
    """The definition with a path, or None."""
    found = re.fullmatch(r"Rattle\.(gltf_\w+)\.specs\.(?!declared\.|contracts\.)(.+)\.(\w+)", path)
    made = found and spec_file(found[1], found[2])
    if not made or not made.texts.get(found[3]):
        return None
    return Definition(path, tuple(clauses_of(made, found[3])))


def clauses_of(made, name):
    """The clauses of a definition."""
    blocks = []
    for number, line in made.texts[name]:
        if re.match(rf"{name}(?: |$)", line):
            blocks.append([(number, line)])
        elif re.match(r"\s*--", line):
            continue
        elif blocks and line.startswith((" ", "}")):
            blocks[-1].append((number, line))
        else:
            raise Wrong(made.path, number, f"the script can't read this line: {line.strip()}")
    for block in blocks:
        text = "\n".join(re.sub(r"(?:^|\s)--.*$", "", line) for _, line in block)
        yield clause(made, name, text, block[0][0])


def clause(made, name, text, line):
    """The patterns and the term of a clause."""
    text = text[len(name):]
    front, equals, back = text.partition(" =")
    while equals and back.startswith("="):
        more, equals, back = back[1:].partition(" =")
        front += f" =={more}"
    if not equals:
        raise Wrong(made.path, line, "a clause has no =")
    parser = Parser(front, made.known(made.texts), made.path, line)
    patterns = []
    while parser.peek() is not None:
        patterns.append(parser.pattern_atom())
    local = {one for pattern in patterns for one in variables(pattern)}
    body = Parser(back, made.known(local), made.path, line + front.count("\n"))
    return tuple(patterns), body.whole(body.term)


def variables(pattern):
    """The variables of a pattern."""
    if isinstance(pattern, Name):
        if not pattern.text.startswith("Rattle.") and pattern.text not in ("_", "[]"):
            yield pattern.text
    elif isinstance(pattern, Call):
        for one in pattern.arguments:
            yield from variables(one)


def replaced(term, values):
    """A term with other terms in place of variables."""
    if isinstance(term, Name):
        return values.get(term.text, term)
    if isinstance(term, Field):
        return Field(replaced(term.of, values), term.name)
    if isinstance(term, Call):
        return Call(term.head, tuple(replaced(one, values) for one in term.arguments))
    if isinstance(term, If):
        return If(*(replaced(one, values) for one in (term.test, term.then, term.other)))
    if isinstance(term, Lambda):
        inner = {name: value for name, value in values.items() if name not in term.names}
        return Lambda(term.names, replaced(term.body, inner))
    if isinstance(term, Tuple):
        return Tuple(tuple(replaced(one, values) for one in term.items))
    if isinstance(term, Record):
        return Record(tuple((name, replaced(one, values)) for name, one in term.pairs))
    return term


def names_in(term):
    """The variables in a term."""
    if isinstance(term, Name):
        return {term.text}
    if isinstance(term, Call):
        return set().union(*map(names_in, term.arguments))
    if isinstance(term, Field):
        return names_in(term.of)
    if isinstance(term, If):
        return set().union(*map(names_in, (term.test, term.then, term.other)))
    if isinstance(term, Tuple):
        return set().union(*map(names_in, term.items))
    if isinstance(term, Record):
        return set().union(*(names_in(one) for _, one in term.pairs))
    return set()
