"""Reads the functions of the crates whose contract says which definition their result is, and the
types of Rust that these depend on."""
import functools
import re
from dataclasses import dataclass, field

from blocks import Wrong
from derive_terms import Call, Name, Parser
from sources import ROOT, trait_and_type

NUMBERS = {"u8", "u16", "u32", "u64", "usize", "f64", "f32", "bool"}
# Types of std that are copied if what they hold is.
COPIED = {"Option"}


@dataclass(frozen=True)
class Type:
    """A type of Rust: `ref`, `slice`, `array`, `tuple`, or a name with the path of its item, with
    the types that it is made of."""
    kind: str
    parts: tuple = ()
    path: tuple = ()

    def target(self):
        """The type behind references."""
        return self.parts[0].target() if self.kind == "ref" else self

    def is_named(self, *names):
        return self.kind == "named" and self.path[-1] in names


def split_list(text):
    """The parts of a text between commas outside of brackets."""
    parts, depth, part = [], 0, ""
    for at, sign in enumerate(text):
        if sign in "(<[{":
            depth += 1
        elif sign in ")>]}" and text[at - 1:at + 1] != "->":
            depth -= 1
        if sign == "," and depth == 0:
            parts.append(part.strip())
            part = ""
        else:
            part += sign
    return [one for one in [*parts, part.strip()] if one]


class Types:
    """Reads types as the sources write them, and looks up what they hold."""

    def __init__(self, sources):
        self.sources = sources

    def read(self, text, here, own=None):
        """The type that a text means in the module `here`, where `Self` is `own`."""
        text = re.sub(r"^&\s*'\w+\s*", "&", text.strip())
        if text.startswith("&"):
            return Type("ref", (self.read(text[1:].strip().removeprefix("mut "), here, own),))
        if text.startswith("["):
            inner, _, length = text[1:-1].partition(";")
            return Type("array" if length else "slice", (self.read(inner, here, own),))
        if text.startswith("("):
            return Type("tuple", tuple(self.read(one, here, own) for one in split_list(text[1:-1])))
        head, bracket, rest = text.partition("<")
        inner = split_list(rest[:rest.rindex(">")]) if bracket else []
        parts = tuple(self.read(one, here, own) for one in inner
                      if not one.startswith("'") and not one.startswith("*"))
        if head == "Self" and own:
            return own
        if head in NUMBERS or head == "str":
            return Type("named", parts, (head,))
        return Type("named", parts, self.place(head.split("::"), here))

    @functools.cache
    def full(self, words, here):
        return tuple(self.sources.resolved(words, here))

    def place(self, words, here):
        """The path of an item. The alias `Index` counts as a type."""
        path = self.full(tuple(words), here)
        name = re.sub("<.*", "", path[-1])
        return (*path[:-1], words[-1] if (words[-1], name) == ("Index", "IndexTo") else name)

    @functools.cache
    def fields(self, path):
        """The types of the fields of a struct, by their names."""
        item, here = self.sources.item(path), path[:-1]
        if not item or item.kind != "struct":
            return {}
        if "(" in item.signature:
            inner = item.signature[item.signature.index("(") + 1:item.signature.rindex(")")]
            texts = [one.removeprefix("pub ") for one in split_list(inner)]
            return {str(at): self.read(one, here) for at, one in enumerate(texts) if one != ".."}
        made = {}
        for one in item.members:
            name, _, text = one.signature.partition(":")
            made[name.strip()] = self.read(text, here)
        return made

    def parameters(self, path):
        """The names of the type parameters of a type."""
        item = self.sources.item(path)
        found = re.search(r"<(.*)>", item.signature.partition("(")[0]) if item else None
        return [one.split(":")[0].strip() for one in split_list(found[1])
                if not one.startswith("'")] if found else []

    @functools.cache
    def variants(self, path):
        """What each variant of an enum holds, by the name of the variant: pairs of a name, which is
        empty if the field has none, and a type."""
        item, here = self.sources.item(path), path[:-1]
        if not item or item.kind != "enum":
            return {}
        made = {}
        for one in item.members:
            name, inner = re.fullmatch(r"(\w+)\s*([({].*[)}])?(?: = .*)?", one.signature).groups()
            fields = []
            for part in split_list(inner[1:-1]) if inner else []:
                field_name, _, text = part.partition(":") if inner[0] == "{" else ("", "", part)
                fields.append((field_name.strip(), self.read(text, here)))
            made[name] = tuple(fields)
        return made

    def instance(self, made, holder):
        """A type of a field or a variant, with the type arguments of its holder in place."""
        given = dict(zip(self.parameters(holder.path), holder.parts))

        def put(one):
            if one.kind == "named" and one.path[-1] in given and not one.parts:
                return given[one.path[-1]]
            return Type(one.kind, tuple(put(part) for part in one.parts), one.path)
        return put(made) if given else made

    def field(self, holder, name):
        """The type of a field of a type or of what it refers to, or None."""
        made = self.fields(holder.target().path).get(name) if holder.target().path else None
        return self.instance(made, holder.target()) if made else None

    @functools.cache
    def is_copied(self, made):
        """Whether a value of the type is copied."""
        if made.kind in ("ref", "array", "tuple"):
            return made.kind == "ref" or all(self.is_copied(part) for part in made.parts)
        if made.kind != "named" or made.path[-1] in NUMBERS:
            return made.kind == "named"
        if made.is_named("Index", "IndexTo"):
            return True
        if made.path[-1] in COPIED:
            return all(self.is_copied(part) for part in made.parts)
        item = self.sources.item(made.path)
        return bool(item) and "Copy" in item.derives and all(
            self.is_copied(part) for part in made.parts)


@dataclass
class Function:
    """A function, and the term that its contract says its result is."""
    name: str
    here: tuple
    path: object
    line: int
    parameters: dict
    result: Type
    owner: object = None
    public: bool = False
    is_method: bool = False
    requires: list = field(default_factory=list)
    term: object = None
    # How many items the array has that is the result.
    length: int = 0
    # The definition by which the contract sees the result, if it does.
    view: str = ""

    ghosts: dict = field(default_factory=dict)

    def key(self):
        """What derive_by_hand.py calls it."""
        owner = [self.owner.path[-1]] if self.owner else []
        return "::".join([*self.here[1:], *owner, self.name])

    def equal_parameters(self, functions):
        """The parameters that `requires` says are some term of the others."""
        for text in self.requires:
            found = re.fullmatch(r"\{ ?(\w+) ≡ ([^→×≡]*?) ?\}", text)
            if found and found[1] in self.parameters:
                yield found[1], functions.term(found[2], self.ghosts, self.parameters, self.path,
                                               self.line)


# A contract that says what the result is, what it refers to, or what a definition sees in it.
CLAUSE = re.compile(r"\{ ?(?:option_copied |option_map \(λ (\w+)\. \1\.now\) |(\w+) )?"
                    r"result(?:\.now)? ≡ (.*?) ?\}", re.S)


class Functions:
    """The functions of all crates by the definitions that their contracts name."""

    def __init__(self, lines, sources):
        self.types = Types(sources)
        # The crates that each crate depends on.
        self.below = {name: line.partition(":")[2].split() for name, line in lines.items()}
        self.all = []
        for name in lines:
            module = self.types.sources.module((name,))
            if module:
                self.read(module, (name,))
        self.by_head = {}
        for one in self.all:
            self.by_head.setdefault(one.term.head if isinstance(one.term, Call) else one.term.text,
                                    []).append(one)

    def read(self, module, here):
        for item in module.items.values():
            if item.kind == "fn":
                self.add(module, here, item, None, module.ghost_uses)
        for block in module.impls:
            trait, target = trait_and_type(block)
            if trait or not re.match(r"[A-Z]\w*", target):
                continue
            own = self.types.read(target.replace("'_", "'a"), here)
            for item in block.members:
                if item.kind == "fn":
                    self.add(module, here, item, own, {**module.ghost_uses, **block.ghost_uses})
        for name, inner in module.modules.items():
            self.read(inner, (*here, name))

    def add(self, module, here, item, own, ghosts):
        clause = next((text for kind, _, text in item.clauses
                       if kind == "ensures" and CLAUSE.fullmatch(text)), None)
        if not clause:
            return
        path, line = ROOT / item.place[0], item.place[1]
        found = CLAUSE.fullmatch(clause)
        inner, result = signature_parts(item.signature)
        found_length = re.search(r"; (\d+)\]$", result)
        parameters, is_method = {}, False
        for text in split_list(inner):
            name, _, type_text = text.partition(":")
            if name.split()[-1].lstrip("&") == "self":
                made = Type("ref", (own,)) if "&" in name else own
                parameters["self"], is_method = made, True
            else:
                parameters[name.strip()] = self.types.read(type_text, here, own)
        made = Function(item.name, here, path, line, parameters,
                        self.types.read(result, here, own) if result else None, own, item.public,
                        is_method)
        try:
            made.term = self.term(found[3], ghosts, parameters, path, line)
            for kind, _, text in item.clauses:
                if kind == "requires":
                    made.requires.append(text)
        except Wrong:
            return
        if not isinstance(made.term, (Call, Name)):
            return
        made.length = int(found_length[1]) if found_length else 0
        made.view = ghosts.get(found[2], "") if found[2] else ""
        made.ghosts = ghosts
        self.all.append(made)

    def term(self, text, ghosts, parameters, path, line):
        def known(name):
            return (f"{ghosts[name]}", False) if name in ghosts and name not in parameters else None
        parser = Parser(text, known, path, line)
        return parser.whole(parser.term)


def signature_parts(signature):
    """The texts of the parameters of a function, and of its result."""
    start = signature.index("(")
    depth = 0
    for at in range(start, len(signature)):
        depth += (signature[at] == "(") - (signature[at] == ")")
        if depth == 0:
            break
    result = signature[at + 1:].strip()
    return signature[start + 1:at], result.removeprefix("->").partition(" where ")[0].strip()
