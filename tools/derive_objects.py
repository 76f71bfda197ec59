"""The objects of the table, from what is written by hand: the struct with its fields, and the
rows, the kind and the members in `specs/`. What doesn't fit is refused with its file and line."""
import re
from dataclasses import dataclass, field

from blocks import Wrong, cases_of, number_of
from derive_exceptions import FIELDS
from derive_names import GHOST_NAMES, SCHEMA
from derive_rows import Terms, inner_kind, read_members, renamed, text_of
from derive_sources import CRATES, Sources
from sources import ROOT
from specs import OWN, Definitions

# A pattern that no type has.
NO_TYPE = "(?!)"
# How many members may have to be there, as the crate that reads rows has it.
READS_ROWS = CRATES / SCHEMA / "src" / "stream.rt"


@dataclass
class Object:
    """An object. `base` is what its names in `specs/` begin with, `module` the path of its struct's
    module, and `tree` the name of its tree if `specs/` defines one."""
    base: str
    crate: str
    spec: str
    kind: str = ""
    rule: str = ""
    keeps: bool = False
    rows: list = field(default_factory=list)
    name: str = ""
    module: tuple = ()
    fields: dict = field(default_factory=dict)
    drops: bool = False
    tree: str = ""
    constants: set = field(default_factory=set)

    def spec_path(self):
        return CRATES / self.crate / "specs" / f"{self.spec}.antt"

    def definitions(self):
        """The module of its definitions."""
        return f"{self.crate}.specs.{self.spec}"

    def names(self):
        """The modules of the definitions that it has, and of what is derived of them."""
        own, derived = f"Rattle.{self.definitions()}", f"Rattle.{self.definitions()}Derived"
        return {f"{self.base}_rows": own, f"{self.base}_members": own, self.kind: own,
                f"{self.base}_sound": derived, f"{self.base}_height": derived,
                f"{self.base}_no_nulls": derived}

    def source(self):
        return (CRATES / self.crate / "src").joinpath(*self.module).with_suffix(".rt")

    def path(self):
        """The path of the struct in Rust."""
        return (self.crate, *self.module, self.name)

    def count_required(self):
        """How many members have to be there."""
        return sum(1 for row in self.rows if row.mark[0] == "required")

    def of_tree(self, value):
        """The tree of a value."""
        if self.tree:
            return f"{self.tree} {value}"
        return f"closed_object ({self.base}_members {value})"

    def tree_function(self, bound):
        """The function that gives the tree of a value."""
        return self.tree or f"λ {bound}. closed_object ({self.base}_members {bound})"


def line_of(path, pattern):
    """The number of the first line that begins with a pattern."""
    for number, line in enumerate(path.read_text().split("\n"), 1):
        if re.match(pattern, line):
            return number
    return 1


class Table:
    """All objects of the table."""

    def __init__(self):
        self.definitions, self.sources = Definitions(), Sources()
        self.problems, self.objects, self.trees = [], {}, {}
        # The modules of named trees, and the factors that fields have.
        self.tree_modules, self.factors = {}, {}
        self.most_required = number_of(READS_ROWS, "MOST_REQUIRED")
        specs = CRATES / SCHEMA / "specs"
        self.silent = said_of(specs / "Silence.antt", "is_silent", "true")
        self.silent_rules = said_of(specs / "Silence.antt", "is_silent_rule", "true")
        heights = cases_of(specs / "Height.antt", "rule_height", r"(\w+) = (\d+)")
        self.rule_heights = {rule: int(height) for _, (rule, height) in heights}
        self.read_kinds()
        self.read_trees()
        for fit in (self.read_object, self.fit_types):
            self.problems += [problem for made in self.objects.values()
                              for problem in refused(fit, made)]
            if self.problems:
                break

    def ghost_names(self):
        """The modules of what the objects, their rules and their trees are called."""
        names = {**GHOST_NAMES, **{rule: f"Rattle.{SCHEMA}.specs.Kind"
                                   for rule in self.rule_heights}}
        for made in self.objects.values():
            names.update(made.names())
        names.update({name: f"Rattle.{module}" for name, module in self.tree_modules.items()})
        # The heights of kinds without rows are by hand.
        for form, made in self.kinds.values():
            if form == "Object" and made.base == "no":
                height = f"{made.kind.removesuffix('_kind')}_height"
                names.update(dict.fromkeys([made.kind, height], f"Rattle.{made.definitions()}"))
        return names

    def key_of(self, name, crate, spec):
        """The definition that a name of a file stands for."""
        own = f"{crate}.{spec}.{name}"
        if own in self.definitions.known:
            return own
        found = OWN.fullmatch(self.uses(crate, spec).get(name, ""))
        return f"{found.group(1)}.{found.group(2)}" if found else name

    def uses(self, crate, spec):
        """The names that a file uses, each with its path."""
        return next(made.uses for key, made in self.definitions.known.items()
                    if key.startswith(f"{crate}.{spec}."))

    def read_kinds(self):
        """The kinds of objects and of choices, by their keys."""
        self.kinds, with_rows = {}, set()
        for key, made in self.definitions.known.items():
            crate, _, rest = key.partition(".")
            spec, _, name = rest.rpartition(".")
            path = CRATES / crate / "specs" / f"{spec.replace('.', '/')}.antt"
            if re.search(rf"pub {name} : Rows$", made.text.split("\n")[1]):
                with_rows.add((crate, spec, name.removesuffix("_rows"), path))
            elif re.search(rf"pub {name} : Kind$", made.text.split("\n")[1]):
                try:
                    self.read_kind(key, name, crate, spec, path)
                except Wrong as wrong:
                    self.problems.append(str(wrong))
        for crate, spec, base, path in sorted(with_rows):
            if base not in self.objects:
                line = line_of(path, f"unfoldable pub {base}_rows")
                self.problems.append(str(Wrong(path, line, f"no kind has the rows {base}_rows")))

    def read_kind(self, key, name, crate, spec, path):
        term = Terms(path, name).term()
        if term[0] == "choice_of":
            self.kinds[key] = ("Choice", term[2])
        elif term[0] == "Object" and len(term) == 4:
            base = term[2].removesuffix("_rows")
            made = Object(base, crate, spec, name, term[1], term[3] == "true")
            self.kinds[key] = ("Object", made)
            if base != "no":
                self.objects[base] = made

    def read_trees(self):
        """The trees that have a name, by the paths of the types that they are of."""
        for key, made in self.definitions.known.items():
            found = re.search(r"pub (\w+) : (\w+) → Tree\n\w+ \w+ = (.*)", made.text)
            path = found and self.rust_path(made.uses.get(found.group(2), ""))
            if path and key.split(".")[-1] == found.group(1) and path not in self.trees:
                crate, spec, name = key.split(".")
                self.trees[path], self.tree_modules[name] = name, f"{crate}.specs.{spec}"

    def rust_path(self, path):
        """The path in Rust of a type that a file in `specs/` names."""
        found = re.fullmatch(r"Rattle\.(\w+)\.specs\.declared\.(.+)\.(\w+)\.\3", path)
        return (found.group(1), *found.group(2).split("."), found.group(3)) if found else None

    def read_object(self, made):
        path = made.spec_path()
        made.rows = Terms(path, f"{made.base}_rows").rows()
        most = self.most_required
        if made.count_required() > most:
            row = [row for row in made.rows if row.mark[0] == "required"][most]
            raise Wrong(path, row.line, f"the row '{row.name}' is required, and an object can have "
                        f"at most {most} such rows (MOST_REQUIRED of {SCHEMA})")
        line = line_of(path, rf"unfoldable pub {made.base}_members : ")
        typed = re.search(rf"(?m)^unfoldable pub {made.base}_members : (\w+) → Trees$",
                          path.read_text())
        rust = typed and self.rust_path(self.uses(made.crate, made.spec).get(typed.group(1), ""))
        if not rust:
            raise Wrong(path, line, f"{made.base}_members isn't a function of a struct that a "
                        "'use' line names")
        made.module, made.name = rust[1:-1], rust[-1]
        made.tree = self.trees.get(rust, "")
        item = self.sources.item(rust)
        if not self.sources.module(rust[:-1]):
            raise Wrong(path, line, f"no crate or module declares 'mod {rust[-2]};', where "
                        f"{made.base}_members looks for {made.name}")
        if not item or not item.members:
            raise Wrong(path, line, f"there is no 'pub struct {made.name}' with fields in "
                        f"{made.source().relative_to(ROOT)}")
        made.fields = {one.name: one.signature.partition(": ")[2] for one in item.members}
        made.drops = "Drop" in item.derives
        made.constants = self.sources.constants(rust)
        self.fit_members(made)
        self.fit_fields(made)

    def fit_members(self, made):
        """Gives each row the field that the member in its place names."""
        path = made.spec_path()
        members = read_members(path, f"{made.base}_members")
        for row, (line, text) in zip(made.rows, members):
            found = re.search(r"\bv\.(\w+)(?:\.0|\.items)?\)?$", text)
            if not found or found.group(1) not in field_names(made.base, row.name):
                raise Wrong(path, line, f"the member '{text}' stands in the place of the row "
                            f"'{row.name}' (line {row.line})")
            row.field, row.member = found.group(1), text
        if len(members) < len(made.rows):
            row = made.rows[len(members)]
            raise Wrong(path, row.line, f"{made.base}_members has no member for the row "
                        f"'{row.name}'")
        if len(members) > len(made.rows):
            line, text = members[len(made.rows)]
            raise Wrong(path, line, f"{made.base}_rows has no row for the member '{text}'")

    def fit_fields(self, made):
        """Compares the rows with the fields of the struct."""
        source, path = made.source(), made.spec_path()
        struct = line_of(source, rf"pub struct {made.name} \{{")
        for row in made.rows:
            if row.field not in made.fields:
                raise Wrong(path, row.line, f"the row '{row.name}' has no field '{row.field}' in "
                            f"{made.name} ({source.relative_to(ROOT)}:{struct})")
            row.type = made.fields[row.field]
        fields = {row.field for row in made.rows} | ({"others"} if made.keeps else set())
        for name in made.fields:
            if name not in fields:
                line = struct + line_of_field(source, struct, name)
                raise Wrong(source, line, f"the field '{name}' of {made.name} has no row in "
                            f"{made.base}_rows ({path.relative_to(ROOT)})")
        if made.keeps and "others" not in made.fields:
            raise Wrong(source, struct, f"{made.kind} keeps unknown members, and {made.name} has "
                        "no field 'others'")

    def fit_types(self, made):
        """Compares the type of each field and its tree with the row."""
        source, path = made.source(), made.spec_path()
        struct = line_of(source, rf"pub struct {made.name} \{{")
        for row in made.rows:
            wanted, tree = self.type_and_tree(made, row)
            if not re.fullmatch(wanted, self.bare_type(made, row.type)):
                line = struct + line_of_field(source, struct, row.field)
                raise Wrong(source, line, f"'{row.field}: {row.type}' doesn't fit the row "
                            f"'{row.name}', {row.says()}{self.unknown_type(made, row)}")
            if renamed(tree) != renamed(row.member):
                raise Wrong(path, row.line, f"the member of the row '{row.name}' is "
                            f"'{row.member}', and '{tree}' fits the row and the field")
            if row.default() and not row.is_list():
                self.default(made, row)

    def unknown_type(self, made, row):
        """A note on a type that the module of the object doesn't name, or nothing."""
        name = re.sub(r"^(?:Option|Vec)<(\w+)>$", r"\1", row.type)
        if self.sources.item(self.path_of(made, name)):
            return ""
        return f"; no 'use', 'mod' or 'pub use' line names a type '{name}' there"

    def default(self, made, row):
        """The value of a missing member, in Rust."""
        tree = row.default()
        if tree[0] == "truth" and tree[1] in ("true", "false"):
            return tree[1]
        if tree[0] == "whole":
            return f"USize64({tree[1]})" if row.type == "USize64" else tree[1]
        if tree[0] == "index":
            return f"Index::new({tree[1].upper()})"
        if tree[0] == "closed_object":
            return f"{row.type}::new()"
        text = made.spec_path().read_text()
        chosen = re.search(rf"(?m)^{tree[0]} = chosen \(\w+ \w+\.(\w+)\)$", text)
        choice = re.fullmatch(r"Checked<(\w+)>", row.type)
        if not chosen or not choice:
            raise Wrong(made.spec_path(), row.line, f"the default '{text_of(tree)}' of the row "
                        f"'{row.name}' is not known")
        return f"Checked::Valid({choice.group(1)}::{chosen.group(1)})"

    def bare_type(self, made, text):
        """A type without the names that stand for others."""
        if text == "Extras":
            return "Option<Value>"
        factor = self.factor_of(made, text)
        return f"({factor})" if factor else text

    def factor_of(self, made, text):
        """What a struct of one field holds, if the type is one; else nothing."""
        path = self.path_of(made, text)
        item = self.sources.item(path)
        found = item and item.kind == "struct" and re.search(r"\(pub (.*)\)$", item.signature)
        if found and found.group(1).startswith("Option<"):
            self.factors.setdefault(path, (found.group(1), made.base))
            return found.group(1)
        return ""

    def type_and_tree(self, made, row):
        """What a field's type has to be, as a pattern, and the member in the row's place."""
        mark = row.mark[0]
        may_miss = mark in ("optional", "sometimes", "or_null")
        inner = re.fullmatch(r"\(?Option<(.*?)>\)?", self.bare_type(made, row.type))
        value = inner.group(1) if inner and may_miss else row.type
        wanted, function = self.kind_type(made, row.kind, value)
        field_text = f"v.{row.field}"
        if self.factor_of(made, row.type):
            return rf"\(Option<{wanted}>\)", f"tree_or_absent {function} {field_text}.0"
        listed = re.fullmatch(r"list_tree (.*)", function)
        if may_miss:
            if listed:
                function = f"λ xs. {function} xs.items"
            if " " in function:
                function = f"({function})"
            return f"Option<{wanted}>", f"tree_or_absent {function} {field_text}"
        if listed:
            return wanted, f"{function} {field_text}.items"
        applied = re.fullmatch(r"λ x\. (.*) x\)", function)
        if applied:
            return wanted, f"{applied.group(1)} {field_text})"
        return wanted, f"{function} {field_text}"

    def kind_type(self, made, kind, type_text):
        """The pattern of the types that a kind allows, and the function that gives the tree."""
        plain = {"U32": ("u32", "whole"), "U64": ("USize64", "size_tree"),
                 "Number": ("Real", "real_tree"), "Text": ("String", "text_tree"),
                 "Truth": ("bool", "truth"), "Any": ("Value", "any_tree"),
                 "Attributes": (r"BTreeMap<.*>", "attributes_tree")}
        index = (r"Index<[\w:]+>", "index_tree")
        head = kind[0]
        named = self.named_tree(made, type_text)
        if named and head in (*plain, "Numbers", "Stride"):
            return re.escape(type_text), named
        if head in plain:
            return plain[head]
        if head in ("IndexInto", "SourceImage", "ChannelSampler"):
            return index
        if head == "Numbers":
            return rf"\[Real; {kind[1]}\]", "reals_tree"
        if head == "ListOf":
            inner = inner_kind(kind)
            item = re.fullmatch(r"Vec<(.*)>", type_text)
            wanted, function = self.kind_type(made, inner, item.group(1) if item else "")
            return f"Vec<{wanted}>", f"list_tree {f'({function})' if ' ' in function else function}"
        return self.named_kind_type(made, head, type_text)

    def named_kind_type(self, made, head, type_text):
        key = self.key_of(head, made.crate, made.spec)
        form, of = self.kinds.get(key, (None, None))
        if form == "Choice":
            return r"Checked<\w+>", f"checked_tree {of}"
        if form != "Object":
            raise Wrong(made.spec_path(), line_of(made.spec_path(), f".*{head}"),
                        f"nothing is known of the kind '{head}'")
        path = self.path_of(made, type_text)
        if key.startswith(f"{SCHEMA}.Extensions."):
            name, tree = {"kept_extensions": ("KeptExtensions", "kept_tree")}.get(
                head, ("DroppedExtensions", "dropped_tree"))
            fits = path[-1:] == (name,)
        elif of.base == "no":
            tree = f"{head.removesuffix('_kind')}_tree"
            fits = self.trees.get(path) == tree
        else:
            tree, fits = of.tree_function("x"), path == of.path()
        return re.escape(type_text) if fits else NO_TYPE, tree

    def path_of(self, made, type_text):
        """The full path of a type that an object's file names; empty if it has parameters."""
        if not re.fullmatch(r"[\w:]+", type_text):
            return ()
        return self.sources.resolved(type_text.split("::"), (made.crate, *made.module))

    def named_tree(self, made, type_text):
        """The name of the tree of a type that is not an object of the table."""
        return self.trees.get(self.path_of(made, type_text), "")

    def object_of(self, made, kind):
        """The object that a kind is of, alone or as the item of a list; else None."""
        while kind[0] == "ListOf":
            kind = inner_kind(kind)
        form, of = self.kinds.get(self.key_of(kind[0], made.crate, made.spec), (None, None))
        return of if form == "Object" else None

    def is_silent(self, made, kind, seen=None):
        """Whether nothing can be wrong in a kind. `seen` gets the objects whose rows decide it."""
        seen = [] if seen is None else seen
        if kind[0] in self.silent:
            return True
        inner = self.object_of(made, kind)
        if inner is None:
            return kind[0] == "ListOf" and self.is_silent(
                made, inner_kind(kind), seen)
        if inner.rule not in self.silent_rules:
            return False
        if inner.base != "no" and inner not in seen:
            seen.append(inner)
        return all(self.is_silent(inner, row.kind, seen) for row in inner.rows)

    def loud_rows(self, made):
        """The rows in which something can be wrong."""
        return [row for row in made.rows if not self.is_silent(made, row.kind)]

    def form_of(self, made):
        """How a walk visits an object: nothing can be wrong in it ("flat"), only in one or two
        references to textures ("textures"), it is such a reference ("reference"), or else by its
        events."""
        loud = self.loud_rows(made)
        if made.rule in self.silent_rules:
            if not loud:
                return "flat"
            if len(loud) <= 2 and all(self.is_texture(made, row) for row in loud):
                return "textures"
            if [row.kind for row in loud] == [("IndexInto", "textures")]:
                return "reference"
        return "events"

    def is_texture(self, made, row):
        inner = self.object_of(made, row.kind)
        return row.mark == ("optional",) and inner is not None and inner.base == "info"

    def is_flat(self, made):
        """Whether nothing can be wrong in an object."""
        return made.rule in self.silent_rules and all(
            self.is_silent(made, row.kind) for row in made.rows)

    def height(self, made):
        """How many steps down something can be wrong."""
        heights = [1 + self.kind_height(made, row.kind) for row in made.rows
                   if not self.is_silent(made, row.kind)]
        return max([self.rule_heights[made.rule], *heights])

    def kind_height(self, made, kind):
        if kind[0] == "Attributes":
            return 1
        if kind[0] == "ListOf":
            return 1 + self.kind_height(
                made, inner_kind(kind))
        inner = self.object_of(made, kind)
        return self.height(inner) if inner else 0


def said_of(path, name, value):
    """The first words of the cases in which a definition has a value."""
    return {first for _, (first, said) in cases_of(path, name, r"\(?(\w+).*? = (.+)")
            if said == value}


def refused(fit, made):
    """What is wrong with an object."""
    try:
        fit(made)
    except Wrong as wrong:
        yield str(wrong)


def line_of_field(source, struct, name):
    """How many lines below its head a struct has a field."""
    lines = source.read_text().split("\n")[struct - 1:]
    return next((k for k, line in enumerate(lines) if line.startswith(f"    pub {name}: ")), 0)


def field_names(base, row):
    """The names that the field of a row may have."""
    snake = re.sub(r"(?<=[a-z0-9])([A-Z])", r"_\1", row.replace("KHR_", "khr_"))
    snake = re.sub(r"^(khr_[a-z_]*?)([A-Z])", r"\1\2", snake).lower()
    return {snake, f"{snake}_", snake.removeprefix("khr_"), FIELDS.get(row, snake),
            snake.removeprefix("khr_materials_")}
