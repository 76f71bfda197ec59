"""Reads what is written by hand of the objects in `specs/`: rows, kinds and members.

A term is a tuple of words and terms: `always (whole 0)` is `("always", ("whole", "0"))`."""
import re
from dataclasses import dataclass

from blocks import Wrong

# The marks, with the number of words of each.
MARKS = {"required": 1, "optional": 1, "sometimes": 1, "or_null": 1, "always": 2, "unless": 2}
TOKEN = re.compile(r'"[^"]*"|[(),]|[^\s(),"]+')


@dataclass
class Row:
    """A row of an object, and what the member in its place says."""
    name: str
    mark: tuple
    kind: tuple
    line: int
    field: str = ""
    type: str = ""
    member: str = ""

    def is_list(self):
        """Whether it is a list that is written if it has items."""
        return self.mark == ("unless", ("list", "end"))

    def default(self):
        """The tree of a missing member, as a term; None if it has none."""
        if len(self.mark) == 1:
            return None
        return self.mark[1] if isinstance(self.mark[1], tuple) else self.mark[1:]

    def says(self):
        """The mark and the kind, in words."""
        return f"which is '{text_of(self.mark)}' and of kind '{text_of(self.kind)}'"


def inner_kind(kind):
    """The kind of the items of a list."""
    return kind[1] if isinstance(kind[1], tuple) else kind[1:]


def text_of(term):
    """A term as it is written."""
    return " ".join(f"({text_of(part)})" if isinstance(part, tuple) else part for part in term)


def definition_lines(path, name):
    """The lines of a definition with their numbers, without comments and without its type."""
    lines = path.read_text().split("\n")
    for at, line in enumerate(lines):
        if re.match(rf"{name}(?: \w+)? =", line):
            end = next(k for k in range(at, len(lines) + 1) if k == len(lines) or not lines[k])
            kept = [(k + 1, re.sub(r"(^|\s)--.*", "", lines[k])) for k in range(at, end)]
            return [(kept[0][0], kept[0][1].partition("=")[2]), *kept[1:]]
    raise Wrong(path, 1, f"there is no line '{name} ='")


class Terms:
    """A position in the text of a definition."""

    def __init__(self, path, name):
        self.path = path
        self.tokens = [(token, number) for number, line in definition_lines(path, name)
                       for token in TOKEN.findall(line)]
        self.line = self.tokens[0][1] if self.tokens else 1

    def next(self):
        return self.tokens[0][0] if self.tokens else ""

    def take(self, token=None):
        """Takes the next token, which has to be `token` if that is given."""
        found = self.next()
        if not found or token not in (None, found):
            raise Wrong(self.path, self.line, f"'{token or 'a word'}' is missing before '{found}'")
        self.line = self.tokens.pop(0)[1]
        return found

    def atom(self):
        """A word, or a term in brackets."""
        if self.next() != "(":
            return self.take()
        self.take("(")
        term = self.term()
        self.take(")")
        return term

    def term(self):
        """A word with its arguments."""
        parts = []
        while self.next() not in ("", ",", ")", "◂"):
            parts.append(self.atom())
        if not parts:
            raise Wrong(self.path, self.line, f"a word is missing before '{self.next()}'")
        return parts[0] if len(parts) == 1 and isinstance(parts[0], tuple) else tuple(parts)

    def row(self):
        self.take("(")
        line = self.line
        self.take("codes")
        name = self.take().strip('"')
        self.take(",")
        mark = self.term()
        if MARKS.get(mark[0]) != len(mark):
            raise Wrong(self.path, self.line, f"'{text_of(mark)}' is no mark of a row")
        self.take(",")
        kind = self.term()
        self.take(")")
        return Row(name, mark, kind, line)

    def rows(self):
        """All rows. Two of one name are refused."""
        rows = []
        while self.next() == "(":
            rows.append(self.row())
            self.take("◂")
        end = self.term()
        if end[0] == "extensions_and_extras":
            kind = end[1] if isinstance(end[1], tuple) else (end[1],)
            rows.append(Row("extensions", ("optional",), kind, self.line))
            rows.append(Row("extras", ("optional",), ("Any",), self.line))
        elif end != ("no_rows",):
            raise Wrong(self.path, self.line, f"rows end in '{text_of(end)}'")
        names = {}
        for row in rows:
            if row.name in names:
                raise Wrong(self.path, row.line, f"two rows are named '{row.name}'")
            names[row.name] = row
        return rows


def read_members(path, name):
    """The members of an object: the line and the text of each, in the rows' order."""
    members, depth, text, line = [], 0, "", 0
    lines = definition_lines(path, name)
    if lines[0][1].split() != ["trees", "("]:
        raise Wrong(path, lines[0][0], f"{name} doesn't begin with 'trees ('")
    for number, part in lines[1:]:
        for token in re.findall(r"[()∷]|[^()∷]+", part):
            depth += (token == "(") - (token == ")")
            if token == "∷" and depth == 0:
                members.append((line, " ".join(text.split())))
                text = ""
            else:
                line = line if text.strip() else number
                text += token
    if " ".join(text.split()) != "[])":
        raise Wrong(path, line, f"{name} doesn't end in '∷ [])'")
    return members


def renamed(text):
    """A member whose bound names are numbers, because any name is right."""
    for number, name in enumerate(re.findall(r"λ (\w+)\.", text)):
        text = re.sub(rf"\b{name}\b(?!_)", f"#{number}", text)
    return text
