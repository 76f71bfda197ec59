"""What follows from a choice: its constants, `Choice`, `Display`, and the functions that read and
spell an item. By hand are the enum in `src/`, its spelling and its list of the items that are read
in `specs/*Choices.antt`, and the names of numbers in `specs/GlNames.antt`."""
import re
import sys
import textwrap
from dataclasses import dataclass, field

from blocks import cases_of
from derive_crate import DERIVED
from derive_layout import block, ghosts, header, indented
from derive_names import BASE, ghost_words, use_line, used
from derive_objects import line_of
from derive_sources import CRATES
from sources import ROOT

SPECS = CRATES / BASE / "specs"
NAMES = SPECS / "GlNames.antt"
SPELLING = re.compile(r"(?m)^abbrev pub (\w+)_spelling : (\w+) → Spelling\n((?:.+\n)+)")
SPELLED = r'\w+\.(\w+) = (?:by_number (\d+)|by_name \(codes "([^"]*)"\))'
INNER = re.compile(r"_spelling c = (\w+)_spelling c\.0\n")
LISTED = re.compile(r"(?m)^abbrev pub (\w+) : List (\w+)\n\1 =([^\[]*)\[\]$")
NAMED = r'\w+\.(\w+) = codes "([^"]*)"'
DECLARED = re.compile(rf"(?m)^use Rattle\.{BASE}\.specs\.declared\.([\w.]+)\.(\w+)\.{{\2}}$")
# What the derived text names.
GHOSTS = {
    **dict.fromkeys(["◌≡◌", "Some", "refl"], "Rattle.std.specs.Prelude"),
    **dict.fromkeys(["by_name", "by_number", "item_spelled", "spelling_text"],
                    f"Rattle.{BASE}.specs.Spelling"),
    **dict.fromkeys(["Name", "Number"],
                    f"Rattle.{BASE}.specs.declared.choice.Form.TheVariants"),
}
# The widths of an array in one line, and of an item that shares a line.
ARRAY, SHORT, LINE = 60, 10, 100
# The types whose number is read through a reference.
BY_REFERENCE = {"MagFilter", "MinFilter", "WrappingMode"}


@dataclass
class Words:
    """What docstrings call a choice: one item, all items that are read, and the constant with them.
    `read` calls an item as it is read, and `behind` says more of its number."""
    item: str
    items: str = ""
    constant: str = ""
    read: str = ""
    behind: str = ""


WORDS = {
    "ComponentType": Words("type"),
    "GenericComponentType": Words(
        "type", "component types", "VALID_COMPONENT_TYPES", read="component type"),
    "IndexComponentType": Words(
        "type", "component types of indices", "VALID_INDEX_TYPES",
        read="component type of indices", behind=", also of one that isn't read"),
    "AccessorType": Words("type", "accessor types", "VALID_ACCESSOR_TYPES"),
    "Target": Words("target", "buffer targets", "VALID_TARGETS"),
    "Mode": Words("mode", "modes", "VALID_MODES"),
    "Interpolation": Words("interpolation", "interpolations", "VALID_INTERPOLATIONS"),
    "Property": Words("property", "properties", "VALID_PROPERTIES"),
    "CameraType": Words("type", "camera types", "VALID_CAMERA_TYPES"),
    "LightType": Words("type", "light types", "VALID_TYPES"),
    "AlphaMode": Words("mode", "modes", "VALID_ALPHA_MODES"),
    "MagFilter": Words("filter", "magnification filters", "VALID_MAG_FILTERS"),
    "MinFilter": Words("filter", "minification filters", "VALID_MIN_FILTERS"),
    "WrappingMode": Words("mode", "wrapping modes", "VALID_WRAPPING_MODES"),
}


@dataclass
class Choice:
    """A choice: its type, what its definitions begin with, and where they are. `spelled` has the
    spelling of each variant, `inner` the choice that a struct of one field holds instead, `names`
    the names of the numbers, and `listed` the variants that are read."""
    name: str
    base: str
    spec: str
    module: tuple
    spelled: dict = field(default_factory=dict)
    inner: object = None
    by_number: bool = True
    names: dict = field(default_factory=dict)
    list_name: str = ""
    listed: list = field(default_factory=list)

    def source(self):
        return (CRATES / BASE / "src").joinpath(*self.module).with_suffix(".rt")

    def spec_path(self):
        return SPECS / f"{self.spec}.antt"

    def sources(self):
        """The files that it follows from."""
        return [self.source(), self.spec_path(), *([NAMES] if self.names else [])]

    def words(self):
        return WORDS[self.name]

    def items(self):
        """The items that are read, in Rust."""
        if self.inner:
            return [f"{self.name}({self.inner.name}::{one})" for one in self.listed]
        return [f"{self.name}::{one}" for one in self.listed]

    def ghosts(self):
        """The modules of its definitions."""
        spec = f"Rattle.{BASE}.specs.{self.spec}"
        return {f"{self.base}_spelling": spec, self.list_name: spec,
                f"{self.base}_name": f"Rattle.{BASE}.specs.GlNames"}


class Choices:
    """The choices in the order of the files in `specs/`, and what doesn't fit."""

    def __init__(self, sources):
        self.sources, self.problems = sources, []
        self.choices, self.bases = {}, {}
        for path in sorted(SPECS.glob("*Choices.antt")):
            self.read(path, path.read_text())
        for base in re.findall(r"(?m)^abbrev pub (\w+)_name : ", NAMES.read_text()):
            if base in self.bases:
                named = cases_of(NAMES, f"{base}_name", NAMED)
                self.bases[base].names.update(groups for _, groups in named)
            else:
                self.miss(NAMES, f"{base}_name", f"there is no `{base}_spelling`")
        for made in self.choices.values():
            self.check(made)

    def miss(self, path, pattern, message):
        place = f"{path.relative_to(ROOT)}:{line_of(path, f'.*{pattern}')}"
        self.problems.append(f"{place}: {message}")

    def read(self, path, text):
        """Reads the spellings and the lists of a file."""
        modules = {name: tuple(module.split(".")) for module, name in DECLARED.findall(text)}
        for base, name, lines in SPELLING.findall(text):
            made = Choice(name, base, path.stem, modules.get(name, ()))
            if inner := INNER.search(lines):
                made.inner = self.bases[inner.group(1)]
                made.by_number = made.inner.by_number
            cases = [] if made.inner else cases_of(path, f"{base}_spelling", SPELLED)
            for _, (variant, number, spelled) in cases:
                made.spelled[variant], made.by_number = number or spelled, bool(number)
            self.choices[name] = self.bases[base] = made
        for list_name, name, items in LISTED.findall(text):
            if name in self.choices:
                self.choices[name].list_name = list_name
                self.choices[name].listed = re.findall(r"\w+\.(\w+)", items)
            else:
                self.miss(path, f"{list_name} :", f"there is no spelling of `{name}`")

    def check(self, made):
        """Whether the enum, its spelling, its list and its names have the same variants."""
        path, spelling = made.spec_path(), f"{made.base}_spelling"
        module = self.sources.module((BASE, *made.module))
        item = module and module.items.get(made.name)
        variants = [one.name for one in item.members] if item and item.kind == "enum" else []
        if not item:
            self.miss(path, spelling, f"there is no type `{made.name}` in {BASE}")
        if made.name not in WORDS:
            self.miss(path, spelling, f"tools/derive_choices.py has no words for `{made.name}`")
        if list(made.spelled) != variants:
            self.miss(path, spelling, f"`{made.name}` has the variants {', '.join(variants)}")
        if made.by_number and not made.inner and list(made.names) != variants:
            self.miss(NAMES, f"{made.base}_name", f"`{made.name}` has the variants "
                      f"{', '.join(variants)}")
        if not set(made.listed) <= set((made.inner or made).spelled):
            self.miss(path, f"{made.list_name} :", f"an item is no variant of `{made.name}`")


def write_choices(sources, files):
    """Writes the derived module of each module with choices."""
    table, modules = Choices(sources), {}
    if table.problems:
        sys.exit("\n".join(table.problems))
    for made in table.choices.values():
        modules.setdefault(made.source(), []).append(made)
    for source, group in modules.items():
        lines = [*constants(group), *(line for made in group for line in impls(made))]
        paths = [path for made in group for path in made.sources()]
        ghost_names = dict(GHOSTS)
        for made in group:
            ghost_names.update(made.ghosts())
        files.whole(source.with_suffix("") / f"{DERIVED}.rt", [
            *header(list(dict.fromkeys(paths)), "//!"), "", *uses(group, lines, ghost_names),
            *lines])
        files.declare(source, f"mod {DERIVED};", [
            r"(pub )?mod \w+;", r"(pub )?use .*;|};", r"//!|#!"])


def uses(group, lines, ghost_names):
    text = "\n".join(lines)
    ghost = " ".join(re.findall(r"(?:ghost \w+ =|ensures) \{([^{}]*)\}", text))
    named = {made.name for made in group}
    return [
        *(f"ghost use {module}.{{{', '.join(names)}}};"
          for module, names in used(ghost_words(ghost), ghost_names)),
        "", *use_line("super", sorted(named)).split("\n"),
        "use crate::choice::{Choice, Form, Spelling, item_of};",
        "use crate::validation::Checked;",
        "use std::fmt::{self, Display, Formatter, Write};"]


def doc(text, depth=0):
    return textwrap.wrap(text, LINE - 4 * depth, initial_indent="/// ", subsequent_indent="/// ",
                         break_long_words=False, break_on_hyphens=False)


def array(front, items, end, depth=0):
    """An array, in one line if it is short enough."""
    text = ", ".join(items)
    if len(text) <= ARRAY and 4 * depth + len(f"{front}[{text}]{end}") <= LINE:
        return [f"{front}[{text}]{end}"]
    if all(len(item) <= SHORT for item in items):
        items = textwrap.wrap(f"{text},", LINE - 4 * depth - 4)
    else:
        items = [f"{item}," for item in items]
    return [f"{front}[", *indented(items), f"]{end}"]


def constants(group):
    """The constants of a module: each number once, and the lists of the items that are read."""
    numbers = {name: made.spelled[variant] for made in group
               for variant, name in made.names.items()}
    lines = []
    for name, number in numbers.items():
        lines += ["", f"/// `GL_{name}`.", f"pub const {name}: u32 = {number};"]
    for made in group:
        if not made.listed:
            continue
        words, of = made.words(), made.inner or made
        kind, typed = ("numbers", "u32") if made.by_number else ("names", "&str")
        items = [of.names[one] if made.by_number else f'"{of.spelled[one]}"'
                 for one in made.listed]
        lines += ["", *doc(f"The {kind} of the {words.items}."),
                  *array(f"pub const {words.constant}: &[{typed}] = &", items, ";")]
    return lines


def impls(made):
    """The impls of a choice."""
    parts = [choice(made)] if made.listed else []
    parts.append(display(made))
    functions = [from_number(made)] if made.by_number else [from_name(made)]
    functions = functions if made.listed else []
    if made.by_number:
        functions.append(as_number(made))
    if not made.inner:
        functions.append(name_of(made))
    joined = [line for one in functions for line in ["", *one]][1:]
    parts.append(block(f"impl {made.name}", joined))
    return [line for part in parts for line in ["", *part]]


def choice(made):
    form = "Number" if made.by_number else "Name"
    read = "(refl, " * len(made.listed) + "tt" + ")" * len(made.listed)
    spelling = "Number(u64::from(self.as_gl_enum()))" if made.by_number else "Name(self.name())"
    return block(f"impl Choice for {made.name}", [
        *ghosts([("spelling", f"{made.base}_spelling"), ("listed", made.list_name), ("form", form),
                 ("reads_back", read)]),
        "fn form() -> Form {", f"    Form::{form}", "}", "",
        f"fn listed() -> &'static [{made.name}] {{", *indented(array("&", made.items(), "", 2)),
        "}", "", "fn spelling(self) -> Spelling<'static> {", f"    Spelling::{spelling}", "}"])


def display(made):
    shown = "spelling" if made.listed else "as_gl_enum"
    return block(f"impl Display for {made.name}", [
        *ghosts([("output", f"λ item. Some (spelling_text ({made.base}_spelling item))")]),
        "fn fmt<W: Write>(&self, f: &mut Formatter<W>) -> fmt::Result {",
        f"    Display::fmt(&self.{shown}(), f)", "}"])


def reads(made, head, argument, spelling, what):
    words = made.words()
    said = f"result ≡ item_spelled {made.base}_spelling {made.list_name}"
    clause = [f"    ensures {{ {said} ({argument}) }}"]
    if len(clause[0]) > LINE - 4:
        clause = [f"    ensures {{ {said}", f"        ({argument}) }}"]
    return [*doc(f"Returns the {words.read or words.item} with this {what}, or `Invalid` if there "
                 "is none.", 1),
            f"pub fn {head} -> Checked<{made.name}>", *clause, "{",
            f"    item_of::<{made.name}>(Spelling::{spelling})", "}"]


def from_number(made):
    return reads(made, "from_gl_enum(number: u64)", "by_number number", "Number(number)", "number")


def from_name(made):
    return reads(made, "from_name(name: &str)", "by_name name.now", "Name(name)", "name")


def as_number(made):
    by, read = ("&self", "self.now") if made.name in BY_REFERENCE else ("self", "self")
    words = made.words()
    body = ["self.0.as_gl_enum()"] if made.inner else match(made, made.names)
    return [*doc(f"Returns the number that stands for the {words.item} in a document"
                 f"{words.behind}.", 1),
            f"pub fn as_gl_enum({by}) -> u32",
            f"    ensures {{ by_number result ≡ {made.base}_spelling {read} }}",
            "{", *indented(body), "}"]


def name_of(made):
    if made.by_number:
        names, said = made.names, f"result.now ≡ {made.base}_name self"
        text = ("The name that the specification gives to the number that spells it, as "
                f"`{[*names.values()][-1]}`.")
    else:
        names, said = made.spelled, f"by_name result.now ≡ {made.base}_spelling self"
        text = f"Returns the name that stands for the {made.words().item} in a document."
    quoted = {variant: f'"{name}"' for variant, name in names.items()}
    return [*doc(text, 1), "pub fn name(self) -> &'static str", f"    ensures {{ {said} }}",
            "{", *indented(match(made, quoted)), "}"]


def match(made, texts):
    return ["match self {", *indented(
        [f"{made.name}::{variant} => {text}," for variant, text in texts.items()]), "}"]
