"""What an object's own crate has of it: `Drop` beside the struct, and in files of their own
`new` without a given member, `Object`, the answers of `read_rows` and of `write_members`, the
values of factors, and in `specs/` that its kind is sound and how high it is. An object with rows
that are written as null, in itself or below it, also has `StrictObject`, and the objects beside
those rows a lemma."""
from blocks import Wrong
from derive_exceptions import BY_HAND, FACTS, NEW, Fact
from derive_factors import Factor, object_values
from derive_layout import block, call, ghosts, header, indented, struct
from derive_names import RUST_NAMES, SCHEMA, antt_uses, rust_uses, tactic_names
from derive_rows import text_of
from derive_sources import CRATES

# The name of the module with the derived text of a module.
DERIVED = "derived"
# A value of each type that isn't an object, for a member that has to be there.
ANY_VALUES = {
    "u32": "0",
    "USize64": "USize64(0)",
    "Real": "Real::from_i64(0)",
    "String": "String::new(alloc)",
    "Index": "Index::new(0)",
    "Checked": "Checked::Invalid",
    "Vec": "Vec::new(alloc)",
    "BTreeMap": "BTreeMap::new(alloc)",
}


class Modules:
    """The derived modules of the crates of objects: of each file with structs a child module, and
    of each file with rows a file beside it."""

    def __init__(self, table, files):
        self.table, self.files = table, files
        # The blocks of each file in `src/` and in `specs/`, and the files that they follow from.
        self.blocks, self.lemmas, self.sources = {}, {}, {}
        self.modules = {}
        self.ghosts = table.ghost_names()
        self.strict = [made for made in table.objects.values() if has_nulls(table, made)]
        # The objects without nulls that are rows of objects with nulls.
        self.null_free = [inner for inner in table.objects.values() if inner not in self.strict
                          and any(inner in inner_objects(table, made) for made in self.strict)]

    def add(self, made, crate, module, lines):
        """Adds a block to the derived module of a module."""
        source = (CRATES / crate / "src").joinpath(*module).with_suffix(".rt")
        self.modules[source] = (crate, *module)
        self.blocks.setdefault(source, []).append(lines)
        self.sources.setdefault(source, {source: None})[made.spec_path()] = None
        self.files.count(made, lines)

    def add_lemma(self, made, lines):
        path = made.spec_path()
        self.lemmas.setdefault(path, []).append(lines)
        self.sources.setdefault(path, {path: None})[made.source()] = None
        self.files.count(made, lines)

    def write(self):
        for made in self.table.objects.values():
            CrateTexts(self.table, made).write(self)
        for path, (holds, base) in self.table.factors.items():
            Factor(path, holds).write(self, self.table.objects[base])
        for source, blocks in self.blocks.items():
            self.write_module(source, blocks)
        for path, lemmas in self.lemmas.items():
            self.write_lemmas(path, lemmas)

    def write_module(self, source, blocks):
        lines = [line for lines in blocks for line in ["", *lines]][1:]
        uses = rust_uses(lines, self.ghosts, self.rust_names(self.modules[source]))
        self.files.whole(source.with_suffix("") / f"{DERIVED}.rt",
                         [*header(list(self.sources[source]), "//!"), "", *uses, *lines])
        self.files.declare(source, f"mod {DERIVED};", [
            r"(pub )?mod \w+;", r"(pub )?use .*;|};", r"//!|#!"])

    def rust_names(self, path):
        """The paths of the names that a module declares or uses, from its child module."""
        module, names = self.table.sources.module(path), dict(RUST_NAMES)
        for name, used in module.uses.items():
            used = list(used)
            if used[0] == "super" or used[0] in module.modules:
                used = ["super", *used]
            elif used[0] == "self":
                used = ["super", *used[1:]]
            if used[-1] == name and len(used) > 1 and name[0].isupper():
                names[name] = "::".join(used[:-1])
        return {**names, **{name: "super" for name in module.items}}

    def write_lemmas(self, path, lemmas):
        ranked = sorted(lemmas, key=lambda lines: "_height :" in lines[0])
        lines = [line for lines in ranked for line in ["", *lines]][1:]
        self.files.whole(path.with_stem(f"{path.stem}Derived"), [
            *header(list(self.sources[path]), "--"),
            *antt_uses("\n".join(lines), self.own_names(path)), "", *lines])
        self.files.declare(path.parent / "Lib.antt", f"pub mod {path.stem}Derived", ["pub mod "])

    def own_names(self, path):
        """What derived text uses, but for the lemmas of the file itself."""
        own = {f"{made.base}_{word}" for made in self.table.objects.values()
               if made.spec_path() == path for word in ("sound", "height", "no_nulls")}
        return {name: module for name, module in self.ghosts.items() if name not in own}


class Calls:
    """The facts of a function's calls: those of one name are numbered from the second on."""

    def __init__(self):
        self.counts = {}

    def next(self, name):
        self.counts[name] = self.counts.get(name, 0) + 1
        return f"c.{name}-{self.counts[name]}" if self.counts[name] > 1 else f"c.{name}"


class CrateTexts:
    """The texts of one object in its own crate."""

    def __init__(self, table, made):
        self.table, self.made = table, made
        self.is_plain = not made.keeps

    def write(self, modules):
        made, files = self.made, modules.files
        source = made.source()
        if not made.drops:
            files.marked(source, f"impl Drop for {made.name}", files.end_of(
                source, f"pub struct {made.name} {{"), self.drop())
            files.count(made, self.drop())
        if self.has_new():
            modules.add(made, made.crate, made.module, self.new())
        modules.add(made, made.crate, made.module, self.object())
        if values := object_values(made):
            modules.add(made, made.crate, made.module, values)
        folder = (CRATES / made.crate / "proofs").joinpath(*made.module, DERIVED)
        for function, lines in (("read_rows", self.read_answers()),
                                ("write_members", self.write_answers())):
            files.whole(folder / f"{made.name}Object" / function / "Answers.antt", lines)
            files.count(made, lines)
        modules.add_lemma(made, self.sound())
        modules.add_lemma(made, self.height())
        if made in modules.strict:
            modules.add(made, made.crate, made.module, self.strict_object())
            lines = self.strict_answers()
            files.whole(folder / f"{made.name}StrictObject" / "write_strictly" / "Answers.antt",
                        lines)
            files.count(made, lines)
        if made in modules.null_free:
            modules.add_lemma(made, self.no_nulls())

    def drop(self):
        made = self.made
        fields = struct(f"let {made.name}", [f"{name}: _" for name in made.fields], " = self;")
        return block(f"impl Drop for {made.name}",
                     ["#[inline(always)]", "fn drop(self) {", *indented(fields), "}"])

    def object(self):
        made = self.made
        rule = [] if made.rule == "no_rule" else [("rule", made.rule)]
        unknown = "λ _. no_members" if self.is_plain else "λ e. members_view e.others.entries"
        members = ghosts([
            *rule,
            ("rows", f"{made.base}_rows"),
            ("keeps", "false" if self.is_plain else "true"),
            ("members", f"{made.base}_members"),
            ("unknown", unknown),
            ("kind_is_sound", f"{made.base}_sound"),
            ("height", str(self.table.height(made))),
            ("height_bounds_kind", f"({made.base}_height.1, lit≤ tt)"),
        ])
        return block(f"impl Object for {made.name}",
                     [*members, *self.start(), "", *self.count_required(), "",
                      *self.read_rows(), "", *self.write_members()])

    def unfolding(self, *words):
        """The attribute of a function that `auto` proves by the definitions of these words."""
        module = f"crate.specs.{self.made.spec}"
        names = ", ".join(tactic_names(module, f"{self.made.base}_{word}") for word in words)
        return f"#[tactic(auto, unfolding({names}))]"

    def first_values(self):
        """The struct with each field before its member is read."""
        fields = [f"{row.field}: {self.first_value(row)}" for row in self.made.rows]
        fields += ["others: Map::new(alloc)"] * (not self.is_plain)
        return struct(self.made.name, fields)

    def takes_alloc(self):
        """Whether the struct with these values takes an allocator."""
        return any("(alloc)" in line for line in self.first_values())

    def has_new(self):
        """Whether `new` is derived."""
        return not self.made.count_required() and (self.made.base, "new") not in BY_HAND

    def new(self):
        """`new` of an object in which no member has to be there."""
        made = self.made
        alloc = "alloc: Global" if self.takes_alloc() else ""
        defaults = f"{{ {made.base}_members result ≡ defaults {made.base}_rows }}"
        clauses = [f"ensures {defaults}"] if self.is_plain else [
            f"ensures known {defaults}",
            "ensures unknown { members_view result.others.entries ≡ no_members }"]
        what = NEW.get(made.base, "an object with every member at its default")
        return block(f"impl {made.name}", [
            f"/// Returns {what}.", self.unfolding("rows", "members"),
            f"pub fn new({alloc}) -> {made.name}", *indented(clauses),
            "{", *indented(self.first_values()), "}"])

    def start(self):
        name, body = self.made.name, self.first_values()
        if self.has_new():
            body = [f"{name}::new({'alloc' if self.takes_alloc() else ''})"]
        return [self.unfolding("rows", "members"),
                f"fn start({'' if self.takes_alloc() else '_'}alloc: Global) -> {name} {{",
                *indented(body), "}"]

    def first_value(self, row):
        """The value of a row's field before its member is read."""
        if self.table.factor_of(self.made, row.type):
            return f"{row.type.split('::')[-1]}(None)"
        if row.mark[0] == "required":
            return self.any_value(row)
        if row.is_list():
            return "Vec::new(alloc)"
        return self.table.default(self.made, row) if row.default() else "None"

    def any_value(self, row):
        """A value of a row's field that means nothing, because a member has to take its place."""
        head = row.type.partition("<")[0]
        if head in ANY_VALUES:
            return ANY_VALUES[head]
        if not self.table.object_of(self.made, row.kind):
            raise Wrong(self.made.spec_path(), row.line, f"the row '{row.name}' is required, and "
                        f"derive_crate.py has no value of '{row.type}' in ANY_VALUES")
        return f"{row.type}::start(alloc)"

    def count_required(self):
        return [self.unfolding("rows"), "fn count_required() -> usize {",
                *indented([str(self.made.count_required())]), "}"]

    def read_rows(self):
        lines = [line for row in self.made.rows for line in self.read_row(row)]
        if not self.is_plain:
            lines.append("from.others(&mut self.others);")
        return ["fn read_rows<R: ReadRows>(&mut self, from: &mut R) {", *indented(lines), "}"]

    def method(self, row):
        """The methods of `ReadRows` and of `WriteRows` for a row."""
        return {
            "required": ("required", "always"),
            "optional": ("optional", "optional"),
            "sometimes": ("sometimes", "optional"),
            "or_null": ("optional", "or_null"),
            "always": ("or_default", "always"),
            "unless": ("or_default", "list" if row.is_list() else "unless"),
        }[row.mark[0]]

    def read_row(self, row):
        place = f"&mut self.{row.field}"
        if row.kind == ("ChannelSampler",):
            return [f"let mut number = self.{row.field}.number();",
                    *call("from.required", [f'"{row.name}"', "&mut number"], ";", 2),
                    f"self.{row.field} = Index::new(number);"]
        if self.table.factor_of(self.made, row.type):
            place += ".0"
        return call(f"from.{self.method(row)[0]}", [f'"{row.name}"', place], ";", 2)

    def by_name(self):
        """The rows in the byte order of their names."""
        return sorted(self.made.rows, key=lambda row: row.name.encode())

    def write_members(self):
        return ["fn write_members<W: WriteRows>(&self, to: &mut W) {",
                *indented(self.written(lambda row: self.method(row)[1])), "}"]

    def written(self, method_of):
        """A call for each row, in the order of the names."""
        lines = [] if self.is_plain else ["to.others(&self.others);"]
        for row in self.by_name():
            method = method_of(row)
            inner = ".0" if self.table.factor_of(self.made, row.type) else ""
            inner = ".number()" if row.kind == ("ChannelSampler",) else inner
            default = [self.table.default(self.made, row)] if method == "unless" else []
            lines += call(f"to.{method}", [f'"{row.name}"', f"&self.{row.field}{inner}", *default],
                          ";", 2)
        return lines

    def strict_method(self, row):
        """The method of `StrictRows` for a row."""
        method = self.method(row)[1]
        inner = self.table.object_of(self.made, row.kind)
        if inner and has_nulls(self.table, inner):
            return f"{method}_strictly"
        return "optional" if method == "or_null" else method

    def strict_object(self):
        return block(f"impl StrictObject for {self.made.name}", [
            "fn write_strictly<W: StrictRows>(&self, to: &mut W) {",
            *indented(self.written(self.strict_method)), "}"])

    def read_answers(self):
        facts, calls = [], Calls()
        for row in self.made.rows:
            method, mark = self.method(row)[0], row.mark[0]
            fact = f"{calls.next(method)}.ensures"
            if method == "optional":
                fact += ".or_null" if mark == "or_null" else ".left_out"
            elif method == "or_default":
                fact = f"({fact}.{mark} _)"
            facts.append(self.around(row, "read").text.format(fact))
        extra = self.extra("read")
        used = sorted(["all_read" if self.is_plain else "all_kept", "read_none", "read_row",
                       *extra.names])
        end = "" if self.is_plain else " c.others.ensures"
        return [*self.header(),
                "-- Each row is read in the table's order.",
                *extra.uses,
                f"use Rattle.{SCHEMA}.proofs.RowByRow.{{{', '.join(used)}}}",
                *self.answers("read_rows", used[0], "read", facts, end)]

    def write_answers(self):
        facts, calls = [], Calls()
        for row in self.by_name():
            method, mark = self.method(row)[1], row.mark[0]
            fact = f"{calls.next(method)}.ensures"
            if method in ("always", "optional"):
                fact += f".{mark}"
            if mark == "always":
                fact = f"({fact} _)"
            facts.append(self.around(row, "write").text.format(fact))
        extra = self.extra("write")
        first = "all_written" if self.is_plain else "written_with_others"
        begin = first if self.is_plain else f"{first} c.others.ensures"
        used = [first, "write_none", "write_row", *extra.names]
        return [*self.header(),
                "-- Each row is written in the order of the names.",
                *extra.uses,
                f"use Rattle.{SCHEMA}.proofs.RowsWritten.{{{', '.join(used)}}}",
                *self.answers("write_members", begin, "write", facts, "")]

    def strict_answers(self):
        facts, uses, calls = [], set(), Calls()
        for row in self.by_name():
            method, mark = self.strict_method(row), row.mark[0]
            fact = f"{calls.next(method)}.ensures"
            if method.partition("_")[0] in ("always", "optional"):
                fact += f".{'optional' if mark == 'or_null' else mark}"
            if mark == "always":
                fact = f"({fact} _)"
            inner = self.table.object_of(self.made, row.kind)
            if inner and inner.base in self.table.objects and not has_nulls(self.table, inner):
                word = "null_free_list" if row.is_list() else "null_free"
                uses.add(word)
                fact = f"({word} {inner.kind} {inner.base}_no_nulls {fact})"
            facts.append(fact)
        first = "all_written" if self.is_plain else "written_with_others"
        begin = first if self.is_plain else f"{first} c.others.ensures"
        answers = self.answers("write_strictly", begin, "write", facts, "", "StrictObject")
        names = {name: module for name, module in self.table.ghost_names().items()
                 if name.endswith(("_no_nulls", "_kind"))}
        return [*self.header(),
                "-- Each row is written in the order of the names.",
                f"use Rattle.{SCHEMA}.proofs.RowsWritten.{{{first}, write_none, write_row}}",
                *([f"use Rattle.{SCHEMA}.proofs.NullFreeRows.{{{', '.join(sorted(uses))}}}"]
                  if uses else []),
                *antt_uses("\n".join(facts), names), *answers]

    def no_nulls(self):
        """That nothing of the object is written as null because it is absent."""
        made, unfolded = self.made, [self.made]
        for one in unfolded:
            unfolded += [inner for inner in inner_objects(self.table, one)
                         if inner.base != "no" and inner not in unfolded]
        return [f"pub {made.base}_no_nulls : without_nulls {made.kind} ≡ {made.kind}",
                f"unfolding {' '.join(f'{one.base}_rows' for one in unfolded)}",
                f"{made.base}_no_nulls = refl"]

    def around(self, row, verb):
        """What stands round the fact of a row."""
        return FACTS.get((self.made.base, row.name, verb), Fact("{}", []))

    def extra(self, verb):
        """What the answers use beside what all answers use."""
        facts = [self.around(row, verb) for row in self.made.rows]
        return Fact("", [name for fact in facts for name in fact.names],
                    tuple(use for fact in facts for use in fact.uses))

    def answers(self, function, begin, verb, facts, end, of="Object"):
        made = self.made
        names = f"{made.base}_rows {made.base}_members"
        module = ".".join([*made.module, DERIVED, f"{made.name}{of}"])
        lines = [f"({verb}_row {fact}" for fact in facts]
        lines[-1] += f" {verb}_none" + ")" * len(facts) + end
        return [
            f"use Rattle.{made.crate}.specs.{made.spec}.{{{names.replace(' ', ', ')}}}",
            f"use Rattle.{made.crate}.proofs.{module}.{function}.Goals as goal",
            "",
            "pub returns : goal.returns",
            f"unfolding {names}",
            "returns g c =",
            *indented([begin, *lines]),
        ]

    def header(self):
        return header([self.made.source(), self.made.spec_path()], "--")

    def sound(self):
        made = self.made
        unfolded, lemmas = kind_parts(self.table, made)
        names = [*dict.fromkeys(f"{inner.base}_sound" for inner in lemmas)]
        return [f"pub {made.base}_sound : is_sound {made.kind} ≡ true",
                f"unfolding {' '.join(unfolded)}",
                f"{made.base}_sound = {rewritten(names, 'refl')}"]

    def height(self):
        made = self.made
        names = []
        for inner in inner_objects(self.table, made):
            base = inner.base if inner.base != "no" else inner.kind.removesuffix("_kind")
            names.append(f"{base}_height.0")
            if not self.table.is_flat(inner):
                names.append(f"{base}_height.1")
        high = f"IsHigh {self.table.height(made)}"
        high = "IsFlat" if self.table.is_flat(made) else high
        return [f"pub {made.base}_height : {high} {made.kind}",
                f"unfolding {made.base}_rows",
                f"{made.base}_height = {rewritten(names, '(refl, refl)')}"]


def rewritten(names, end):
    """A proof that rewrites by lemmas."""
    if not names:
        return end
    return f"rw {names[0] if len(names) == 1 else '(' + ', '.join(names) + ')'} {end}"


def kind_parts(table, made):
    """What a lemma about an object's kind unfolds, and the objects on whose lemmas it depends."""
    unfolded, lemmas = [f"{made.base}_rows"], []
    defaults = {text_of(row.mark[1]) for row in made.rows
                if row.mark[1:] and isinstance(row.mark[1], tuple)}
    for inner in inner_objects(table, made):
        if f"closed_object (defaults {inner.base}_rows)" in defaults:
            # The default of a row is computed from these rows, which shows that they are sound.
            unfolded.append(f"{inner.base}_rows")
            lemmas += inner_objects(table, inner)
        elif inner.base != "no":
            lemmas.append(inner)
    return unfolded, lemmas


def has_nulls(table, made):
    """Whether a row of the object is written as null if it is absent, or one below it."""
    return any(row.mark[0] == "or_null" for row in made.rows) or any(
        has_nulls(table, inner) for inner in inner_objects(table, made))


def inner_objects(table, made):
    """The objects with rows that the rows are of, each once, in the rows' order."""
    found = []
    for row in made.rows:
        inner = table.object_of(made, row.kind)
        if inner and inner.crate != SCHEMA and inner not in found:
            found.append(inner)
    return found
