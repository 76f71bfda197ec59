"""The variants of `ValueRef`, a borrowed value of a document: the enum, what each means, the next
event of each, and whether nothing is wrong in it."""
import re

from derive_exceptions import BY_HAND, QUIET_BY_HAND, VALUE_REFS, VARIANT_NAMES, VARIANTS
from derive_layout import call, header, indented
from derive_names import VALUES, RULES, RUST_NAMES, VALUE_TYPES, OBJECTS, antt_uses, rust_uses
from derive_sources import CRATES

# The methods that the events call.
METHODS = ("event", "from_event", "has_no_fault", "is_quiet")
FROM = ["the rows and the structs of all objects", "tools/derive_exceptions.py"]
ENUM_DOC = """
/// A value that a walk comes to: an object, a list or a map in which something can be wrong. It may
/// also be a place that an object's rule names, or a place with nothing below.
#[derive(Clone, Copy, Drop)]
pub enum ValueRef<'a> {
"""
EVENT_DOC = """
/// [`event`](crate::event) as anything that can be made of one. Code that doesn't name `Event` and
/// `Context` is cheaper to prove.
pub(crate) fn event_of<'a, E: FromEvent<'a>, C: HasContext>(
    value: ValueRef<'a>,
    number: usize,
    context: &C,
) -> E
    requires { IsNumbered value }
    ensures comes { E.describes_move (C.context context.now)
        (move_at (checklist_of (C.context context.now) value.entry) number) result }
    ensures small { E.is_more result → number + 1 < 2 ^ 64 }
"""
QUIET_DOC = """
/// Whether a walk looks at the value as a whole, and nothing is wrong in it. A walk looks at the
/// items of lists and at values that hold all their faults. Other values get a frame without a
/// look, which keeps a walk linear: a fault is looked at once for each list above it.
pub fn is_quiet<C: HasContext>(value: &ValueRef<'_>, context: &C) -> bool
    ensures { result ≡ is_looked_at value.now
        && quiet (checklist_of (C.context context.now) value.now) }
"""


def plural(name):
    return f"{name}es" if name.endswith(("s", "x", "sh", "ch")) else f"{name}s"


class Values:
    """The variants: those of objects and of lists of them, by the objects' bases."""

    def __init__(self, table, files):
        self.table, self.files = table, files
        self.names, self.lists = {}, {}
        listed = {table.object_of(made, row.kind).base for made in table.objects.values()
                  for row in made.rows if row.kind[0] == "ListOf"
                  and not table.is_silent(made, row.kind) and table.object_of(made, row.kind)}
        for made in table.objects.values():
            name = VARIANT_NAMES.get(made.base) or "".join(
                word.capitalize() for word in made.base.split("_"))
            is_by_hand = (made.base, "Visitable") in BY_HAND or made.base in VALUE_REFS
            if table.form_of(made) == "events" and not is_by_hand:
                self.names[made.base] = name
            if made.base in listed and (made.base, "ListItem") not in BY_HAND:
                self.lists[made.base] = plural(name)

    def variants(self):
        """Each object with the names of its variants: of a list, and of one."""
        for base, made in self.table.objects.items():
            names = [(self.lists.get(base), True), (self.names.get(base), False)]
            for name, is_list in names:
                if name:
                    yield made, name, is_list

    def write(self):
        self.write_enum()
        self.write_checklists()
        self.write_events()

    def write_enum(self):
        paths, used, lines = {}, {}, []
        for made in self.table.objects.values():
            public = self.table.sources.public(made.path())
            paths[made.base] = "::".join(public)
        for variant in VARIANTS:
            lines += [f"/// {line}" for line in variant.doc]
            lines.append(f"{variant.name}({variant.holds.format(**paths)}),")
        for made, name, is_list in self.variants():
            path = paths[made.base]
            lines.append(f"{name}(&'a Vec<{path}>)," if is_list else f"{name}(&'a {path}),")
            self.files.count(made, lines[-1:])
        # A path whose last name is that of no other one is named by a `use` line.
        text = "\n".join(lines)
        found = set(re.findall(r"gltf_\w+(?:::\w+)+", text))
        for path in sorted(found):
            module, _, name = path.rpartition("::")
            if all(other == path or not other.endswith(f"::{name}") for other in found):
                text, used[name] = re.sub(rf"{path}\b", name, text), module
        enum = [*ENUM_DOC.strip("\n").split("\n"), *indented(text.split("\n")), "}"]
        used.update(VALUE_TYPES)
        self.files.whole(CRATES / OBJECTS / "src/value_ref.rt", [
            *header(FROM, "//!"), "", *rust_uses(enum, {}, used), *enum])

    def write_checklists(self):
        checklists, numbered, looked = [], [], []
        for variant in VARIANTS:
            for shape, checklist in variant.checklists:
                checklists.append(f"checklist_of context (value_ref.{shape}) = {self.filled(checklist)}")
            shape = variant.checklists[0][0]
            if not variant.is_numbered:
                numbered.append(f"IsNumbered (value_ref.{shape}) = ⊥")
            if variant.is_looked_at:
                looked.append(f"is_looked_at (value_ref.{shape}) = true")
        for made, name, is_list in self.variants():
            if is_list:
                lines = [f"checklist_of context (value_ref.{name} xs) = checklist (ListOf {made.kind}) "
                         f"(list_tree ({made.tree_function('x')}) xs.now.items) context absent"]
            else:
                lines = [f"checklist_of context (value_ref.{name} x) = checklist {made.kind} "
                         f"({made.of_tree('x.now')}) context absent"]
            checklists += lines
            self.files.count(made, lines)
            if not is_list and made.base in self.lists:
                looked.append(f"is_looked_at (value_ref.{name} x) = true")
                self.files.count(made, looked[-1:])
        found = [f"is_found (value_ref.{variant.checklists[0][0]}) = true" for variant in VARIANTS
                 if variant.is_found]
        lines = [
            "-- the checklist of a value, in a context",
            "abbrev pub checklist_of : Context → ValueRef → Checklist", *checklists, "",
            "-- a value whose moves are numbered; attributes are gone through by their keys",
            "abbrev pub IsNumbered : ValueRef → Type 0", *numbered, "IsNumbered _ = ⊤", "",
            "-- ---- what a walk looks at", "",
            "-- a value that holds all its faults; materials are looked at as items of a list",
            "abbrev pub is_found : ValueRef → Bool", *found, "is_found _ = false", "",
            "-- an item of a list, or a value that holds all its faults",
            "abbrev pub is_looked_at : ValueRef → Bool", *looked, "is_looked_at v = is_found v"]
        own = ("checklist_of", "is_looked_at", "IsNumbered", "is_found")
        known = {name: path for name, path in self.table.ghost_names().items() if name not in own}
        declared = f"use Rattle.{OBJECTS}.specs.declared.value_ref.ValueRef"
        self.files.whole(CRATES / OBJECTS / "specs/ValueRefs.antt", [
            *header(FROM, "--"), *antt_uses("\n".join(lines), known), f"{declared}.{{ValueRef}}",
            f"{declared}.TheVariants as value_ref", "", *lines])

    def filled(self, text):
        """A text with the kinds and the trees of objects."""
        kinds = {f"{base}_kind": made.kind for base, made in self.table.objects.items()}
        trees = {f"{base}_tree": made.tree_function("x")
                 for base, made in self.table.objects.items()}
        return text.format(**kinds, **trees)

    def write_events(self):
        events, looks = [], []
        for variant in VARIANTS:
            arm = f"ValueRef::{variant.name}({variant.bound}) => {variant.event},"
            if len(arm) + 8 > 100:
                front, _, arguments = variant.event.removesuffix("))").rpartition("(")
                arm = [f"ValueRef::{variant.name}({variant.bound}) => {front.partition('(')[0]}(",
                       f"    {front.partition('(')[2]}({arguments}),", "),"]
            events += [arm] if isinstance(arm, str) else arm
        for made, name, is_list in self.variants():
            event = "item_at(value, number, context)" if is_list else "value.event(number, context)"
            events.append(f"ValueRef::{name}(value) => {event},")
            self.files.count(made, events[-1:])
            if not is_list and made.base in self.lists:
                looks.append(f"ValueRef::{name}(item) => item.is_quiet(context),")
                self.files.count(made, looks[-1:])
        for pattern, front, arguments in QUIET_BY_HAND:
            looks += call(f"{pattern} => {front}", arguments, ",", 2)
        looks.append("found => found.has_no_fault(),")
        lines = [*EVENT_DOC.strip("\n").split("\n"), "{", "    match value {",
                 *indented(events, 2), "    }", "}", "",
                 *QUIET_DOC.strip("\n").split("\n"), "{", "    match value {",
                 *indented(looks, 2), "    }", "}"]
        names = {name: OBJECTS if module.startswith("crate::") else module
                 for name, module in RUST_NAMES.items()}
        calls = re.findall(r"[a-z_]+(?=\()", "\n".join(events + looks))
        names.update({name: OBJECTS for name in calls if name not in METHODS})
        names.update({"FromEvent": "crate::values", "HasContext": RULES})
        self.files.whole(CRATES / VALUES / "src/derived.rt", [
            *header(FROM, "//!"), "",
            *rust_uses(lines, self.table.ghost_names(), names, ["Events", "Quiet"]), *lines])
