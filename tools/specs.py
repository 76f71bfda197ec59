"""Reads the definitions of `specs/`: each with its text and the definitions that it uses.

A definition is called `crate.Module.name`. A constructor counts as the type that it makes."""
import re
from dataclasses import dataclass, field

from sources import ROOT

TOKEN = re.compile(r"[^\s(){},;\[\]]+")
HEAD = re.compile(r"(?:(?:unfoldable|abbrev|pub|data|record) )+([^\s({]+)|([^\s({]+) :(?: |$)")
CONTAINER = re.compile(r"(?:abbrev )?(?:module|mutual)\b")
CONSTRUCTOR = re.compile(r"\s+([^\s(){}]+) :")
OWN = re.compile(r"Rattle\.(gltf_\w+)\.specs\.(?!declared\.|contracts\.)(.+)")


@dataclass
class Definition:
    """A definition: its text, and the paths that the names of its file stand for."""
    text: str
    uses: dict = field(default_factory=dict)

    def is_type(self):
        """It is a type without arguments, as the trees are."""
        return bool(re.search(r"(?:data|record|abbrev pub) \S+ : Type 0", self.text))


def bare(text):
    """A text without comments, and without the blanks that only lay it out."""
    text = re.sub(r"(?m)(?:^|\s)(?:--|//).*$", "", text)
    return re.sub(r" ?([(){}\[\],;]) ?", r"\1", " ".join(text.split()))


def used_names(line):
    """The names that a `use` line gives, each with its path."""
    path, _, listed = line.removeprefix("pub ").removeprefix("use ").partition(".{")
    if listed:
        for entry in listed.rstrip("} ").split(","):
            name, _, other = entry.strip().partition(" as ")
            yield other or name, f"{path}.{name}"
    else:
        path, _, other = path.strip().partition(" as ")
        yield other or path.rpartition(".")[2], path


def paths(text, uses):
    """The paths of the names in a text."""
    found = set()
    operators = {part: name for name in uses if "◌" in name for part in name.split("◌") if part}
    for token in TOKEN.findall(text):
        first, _, rest = token.partition(".")
        for name in (token, first, operators.get(token)):
            if name in uses:
                found.add(uses[name])
                found.add(f"{uses[name]}.{rest}" if rest else uses[name])
    return found


class Definitions:
    """All definitions of the crates."""

    def __init__(self):
        self.known, self.makers = {}, {}
        for file in sorted(ROOT.glob("crates/*/specs/**/*.antt")):
            crate, _, *inner = file.relative_to(ROOT / "crates").with_suffix("").parts
            self.read(file.read_text(), crate, ".".join(inner))

    def read(self, text, crate, module):
        """Reads the definitions of a file."""
        uses, block, container, indent, is_data = {}, None, "", 0, False
        for line in text.split("\n"):
            stripped = line.strip()
            if not stripped or stripped.startswith("--"):
                continue
            at = len(line) - len(line.lstrip())
            if at == 0:
                container, indent = "", 0
            if re.match(r"(pub )?use ", line):
                uses.update(used_names(line))
                continue
            if at == 0 and CONTAINER.match(line):
                container, indent, block = line, 2, None
                continue
            found = HEAD.match(stripped) if at == indent else None
            if found:
                name = found.group(1) or found.group(2)
                is_data = "data " in stripped.partition(name)[0]
                made = Definition(container, uses)
                block = self.known.setdefault(f"{crate}.{module}.{name}", made)
                uses[name] = f"Rattle.{crate}.specs.{module}.{name}"
            elif block and is_data and (maker := CONSTRUCTOR.match(line)):
                self.makers[f"{crate}.{module}.{maker.group(1)}"] = f"{crate}.{module}.{name}"
                uses[maker.group(1)] = uses[name]
            if block:
                block.text += "\n" + line

    def used(self, text, uses):
        """The definitions of this repository that a text uses."""
        found = (OWN.fullmatch(path) for path in paths(text, uses))
        names = (f"{path.group(1)}.{path.group(2)}" for path in found if path)
        return {self.makers.get(name, name) for name in names} & set(self.known)
