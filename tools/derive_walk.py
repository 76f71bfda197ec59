"""What the crates above an object's own have of it: how a walk visits it, its line in the table of
what is validated, and the list of a document that holds it."""
import re

from derive_exceptions import (
    ARMS_IN_ROWS, ARMS_OF_RULES, BY_HAND, EVENT_ANSWERS, TWO_TEXTURES, VALUE_REFS,
)
from derive_layout import LINE, block, call, ghosts, header, indented
from derive_names import (
    RUST_NAMES, ROOT_CRATE, VALIDATION, OBJECTS, antt_uses, rust_uses, tactic_names,
)
from derive_sources import CRATES
from derive_values import Values

EVENTS_HEAD = "impl<'a, E: EventBuilder<'a>> Events<'a, E>"


class Group:
    """A derived file of how a walk visits: the blocks of the objects whose rows are in one file."""

    def __init__(self, name):
        self.name, self.blocks, self.owners, self.unfolded = name, [], [], {}
        self.needs_past = False


class Walk:
    """The texts of all objects in the crates above them."""

    def __init__(self, table, files):
        self.table, self.files = table, files
        self.ghosts = table.ghost_names()
        self.groups = {}
        # The names of the members that refer to textures.
        self.member_names = {}
        self.values = Values(table, files)

    def write(self):
        for made in self.table.objects.values():
            self.made, self.group = made, self.group_of(made)
            self.write_visits()
        for path, (_, base) in self.table.factors.items():
            self.made = self.table.objects[base]
            self.group = self.group_of(self.made)
            self.add("AlwaysValid", ghosts([("quiet_checklist", "λ _ _. refl")]), path)
        for group in self.groups.values():
            self.write_group(group)
        names = [f"mod {group.name};" for group in self.groups.values() if group.blocks]
        self.files.whole(CRATES / OBJECTS / "src/derived.rt", [
            *header(["the rows and the structs of all objects"], "//!"), "", *sorted(names)])
        self.write_member_names()
        self.values.write()
        self.write_table()
        self.write_lists()

    def group_of(self, made):
        name = re.sub(r"(?<=[a-z])([A-Z])", r"_\1", made.spec).lower()
        return self.groups.setdefault(name, Group(name))

    def is_by_hand(self, trait):
        return (self.made.base, trait) in BY_HAND

    def add(self, trait, parts, path=None):
        """Adds an impl for the object or for a factor of it."""
        path = path or self.made.path()
        head = EVENTS_HEAD if trait == "Events" else f"impl {trait}"
        lines = block(f"{head} for §", parts)
        self.group.blocks.append((path, lines))
        if self.made not in self.group.owners:
            self.group.owners.append(self.made)
        self.files.count(self.made, lines)

    def write_group(self, group):
        if not group.blocks:
            return
        names, paths = self.local_names([path for path, _ in group.blocks], OBJECTS)
        lines = []
        for path, block_lines in group.blocks:
            lines += ["", *[line.replace("§", names[path]) for line in block_lines]]
        attribute = []
        if group.unfolded:
            using = "using(crate::proofs::Past::past), " if group.needs_past else ""
            attribute = [f"#![tactic(auto, {using}unfolding({', '.join(group.unfolded)}))]"]
        sources = dict.fromkeys(path for made in group.owners
                                for path in (made.source(), made.spec_path()))
        uses = rust_uses(lines, self.ghosts, {**RUST_NAMES, **paths})
        self.files.whole(CRATES / OBJECTS / "src/derived" / f"{group.name}.rt", [
            *header(sorted(sources), "//!"), *attribute, "", *uses, *lines[1:]])

    def local_names(self, paths, crate):
        """What types are called in a file: by their names, which a `use` line gives, or by their
        paths if two have one name."""
        names, used = {}, {}
        for path in dict.fromkeys(paths):
            public = self.table.sources.public(path)
            own = "crate" if public[0] == crate else public[0]
            module = "::".join([own, *public[1:-1]])
            twice = any(other != path and other[-1] == path[-1] for other in paths)
            names[path] = f"{module}::{path[-1]}" if twice else path[-1]
            if not twice:
                used[path[-1]] = module
        return names, used

    # ---- how a walk visits an object

    def write_visits(self):
        made, table = self.made, self.table
        if not self.is_by_hand("Visitable"):
            loud = table.loud_rows(made)
            form = table.form_of(made)
            if form == "flat":
                self.add("AlwaysValid", self.always_valid())
            elif form == "textures":
                self.write_textures(loud)
            elif form == "reference":
                self.write_reference(loud[0])
            else:
                name = VALUE_REFS.get(made.base) or f"{self.values.names[made.base]}(self)"
                self.add("Visitable", self.visitable([f"ValueRef::{name}"]))
                self.add("Events", self.events(loud))
                self.add("Quiet", quiet(["is_object_quiet(self, context)"]))
        if made.base in self.values.lists:
            name = self.values.lists[made.base]
            self.add("ListItem", ["fn list_ref<'a>(items: &'a Vec<§>) -> ValueRef<'a> {",
                                  f"    ValueRef::{name}(items)", "}"])

    def always_valid(self):
        made = self.made
        rows = [f"{one.base}_rows" for one in [made, *self.deciding()]]
        return ghosts([*self.kind_and_tree(),
                       ("quiet_checklist", f"λ _ _. unfold {' '.join(rows)} {made.base}_members in refl")])

    def kind_and_tree(self):
        return [("kind", self.made.kind), ("tree", self.made.tree_function("v"))]

    def deciding(self):
        """The objects below whose rows decide in which rows something can be wrong."""
        seen = [self.made]
        for row in self.made.rows:
            self.table.is_silent(self.made, row.kind, seen)
        return seen[1:]

    def unfold(self, needs_past=False):
        """Lets the proofs of the file unfold the rows and the members."""
        made = self.made
        for one in [made, *self.deciding()]:
            self.group.unfolded[tactic_names(one.definitions(), f"{one.base}_rows")] = None
        self.group.unfolded[tactic_names(made.definitions(), f"{made.base}_members")] = None
        self.group.needs_past |= needs_past

    def visitable(self, body, context="_context"):
        return [*ghosts(self.kind_and_tree()),
                f"fn value_ref<'a>(&'a self, {context}: &Context<'_>) -> ValueRef<'a> {{",
                *indented(body), "}"]

    def events(self, loud):
        """The events: a member for each row in which something can be wrong, in the rows' order,
        then what the rule says."""
        made, arms, at = self.made, [], {}
        for row in made.rows:
            by_hand = ARMS_IN_ROWS.get((made.base, row.name))
            if by_hand or row in loud:
                at[row.name] = len(arms)
                arms.append(by_hand or call(
                    f"{len(arms)} => E::member", [f'"{row.name}"', f"&self.{row.field}", "context"],
                    ",", 3))
        at[made.rule] = len(arms)
        arms += [ARMS_OF_RULES[made.rule]] if made.rule in ARMS_OF_RULES else []
        self.unfold(True)
        self.write_event_answers(at)
        texts = [line for number, lines in enumerate(arms)
                 for line in [lines[0] if lines[0].startswith(f"{number} => ")
                              else f"{number} => {lines[0]}", *lines[1:]]]
        return ["fn event<C: HasContext>(&'a self, number: usize, context: &C) -> E {",
                "    match number {", *indented([*texts, "_ => E::end(),"], 2), "    }", "}"]

    def write_event_answers(self, at):
        """The answer to the arm that no tactic proves, if the object has one."""
        made = self.made
        if made.base not in EVENT_ANSWERS:
            return
        row, text = EVENT_ANSWERS[made.base]
        lines = text.strip("\n").replace("§", str(at[row])).split("\n")
        module = f"derived.{self.group.name}.{made.name}Events.event"
        self.files.whole(CRATES / OBJECTS / "proofs" / module.replace(".", "/") / "Answers.antt", [
            *header([made.source(), made.spec_path(), "tools/derive_exceptions.py"], "--"),
            *antt_uses("\n".join(lines), self.ghosts),
            f"use Rattle.{OBJECTS}.proofs.{module}.Goals as goal", "", *lines])
        self.files.count(made, lines)

    def write_textures(self, rows):
        """An object in which only its references to textures can be wrong, one or two."""
        front, named = {1: "ValueRef::OneTexture", 2: "ValueRef::TwoTextures"}[len(rows)], True
        if self.made.base in TWO_TEXTURES:
            front, named = TWO_TEXTURES[self.made.base], False
        states = [f"member_state(&self.{row.field}, context)" for row in rows]
        self.member_names.update({f"{row.name[0].upper()}{row.name[1:]}": row.name for row in rows})
        names = [f"MemberName::{row.name[0].upper()}{row.name[1:]}" for row in rows] * named
        self.unfold()
        self.add("Visitable", self.visitable(call(front, [*states, *names], "", 2), "context"))
        looks = [f"self.{row.field}.is_quiet(context)" for row in rows]
        text = " && ".join(looks)
        lines = [text] if 8 + len(text) <= LINE else [looks[0], *indented(
            [f"&& {look}" for look in looks[1:]])]
        self.add("Quiet", quiet(lines))

    def write_reference(self, row):
        """A reference to a texture."""
        self.unfold()
        self.add("Visitable", self.visitable(
            ["ValueRef::TextureReference(self.state(context))"], "context"))
        self.add("TextureReference", [
            "fn state(&self, context: &Context<'_>) -> ReferenceState {",
            f"    index_state(&self.{row.field}, context)",
            "}"])
        self.add("Quiet", quiet(["is_reference_quiet(self, context)"]))

    def write_member_names(self):
        """The names of the references to textures, by which a walk gives their places."""
        names, of = self.member_names, self.table.objects["material_extension"]
        head = header(["the rows of the objects that refer to textures"], "//!")
        source = [
            "/// The members that refer to textures, of the parameters and the extension objects "
            "of materials.",
            "#[derive(Clone, Copy, Drop)]",
            "pub enum MemberName {", *indented([f"{name}," for name in names]), "}", "",
            *block("impl MemberName", [
                "/// The name in a document.",
                "pub(crate) fn text(self) -> &'static str",
                "    ensures { result.now ≡ member_text self }",
                "{",
                "    match self {",
                *indented([f'MemberName::{name} => "{text}",' for name, text in names.items()], 2),
                "    }",
                "}"])]
        self.files.count(of, source)
        self.files.whole(CRATES / OBJECTS / "src/member_name.rt", [
            *head, "", *rust_uses(source, self.ghosts, {}), *source])
        declared = f"use Rattle.{OBJECTS}.specs.declared.member_name.MemberName"
        lines = ["-- the names of members that refer to textures",
                 "abbrev pub member_text : MemberName → List ℕ",
                 *[f'member_text member_name.{name} = codes "{text}"'
                   for name, text in names.items()]]
        self.files.count(of, lines)
        own = {name: path for name, path in self.ghosts.items() if name != "member_text"}
        self.files.whole(CRATES / OBJECTS / "specs/MemberNames.antt", [
            *header(["the rows of the objects that refer to textures"], "--"),
            *antt_uses("\n".join(lines), own), f"{declared}.{{MemberName}}",
            f"{declared}.TheVariants as member_name", "", *lines])

    # ---- what is validated, and the lists of a document

    def write_table(self):
        """What is validated by itself."""
        objects = [made for made in self.table.objects.values()
                   if (made.base, "SchemaObject") not in BY_HAND]
        paths = [*(made.path() for made in objects), *self.table.factors]
        names, used = self.local_names(paths, VALIDATION)
        lines = []
        for made in objects:
            part = block(f"impl SchemaObject for {names[made.path()]}", ghosts(
                [("same_kind", "refl"), ("same_tree", "λ _. refl")]))
            lines += ["", *part]
            self.files.count(made, part)
        for path, (_, base) in self.table.factors.items():
            part = block(f"impl SchemaType for {names[path]}", ghosts(
                [("depth_bounds_kind", "(lit≤ tt, lit≤ tt)")]))
            lines += ["", *part]
            self.files.count(self.table.objects[base], part)
        traits = {"SchemaObject": "super", "SchemaType": "super"}
        self.files.whole(CRATES / VALIDATION / "src/validation/table/derived.rt", [
            *header(["the rows and the structs of all objects"], "//!"), "",
            *rust_uses(lines, self.ghosts, {**used, **traits}), *lines[1:]])

    def write_lists(self):
        """The lists that are members of a document."""
        root = self.table.objects["root"]
        lists = [(row.field, self.table.object_of(root, row.kind)) for row in root.rows
                 if row.kind[0] == "ListOf" and self.table.object_of(root, row.kind)]
        names, used = self.local_names([made.path() for _, made in lists], ROOT_CRATE)
        lines = []
        for field, made in lists:
            name = names[made.path()]
            part = block(f"impl TopLevel for {name}", top_level(field, name))
            lines += ["", *part]
            self.files.count(made, part)
        used.update({"TopLevel": "super", "Root": f"crate::{'::'.join(root.module)}"})
        folder = CRATES / ROOT_CRATE / "src/root/top_level"
        self.files.whole(folder / "derived.rt", [
            *header([root.source(), root.spec_path()], "//!"), "",
            *rust_uses(lines, self.ghosts, used), *lines[1:]])


def quiet(body):
    return ["fn is_quiet<C: HasContext>(&self, context: &C) -> bool {", *indented(body), "}"]


def top_level(field, name):
    return [
        *ghosts([
            ("held", f"λ r. r.{field}"),
            ("put", f"λ list r. record r {{ {field} = list }}"),
            ("kind_is_item_kind", "refl"),
            ("tree_lists_items", "λ r. unfold root_rows root_members in refl"),
            ("put_replaces_list", "λ r list. unfold root_rows root_members in (refl, refl)"),
            ("put_held_changes_nothing", "λ r. refl"),
            ("needs_no_extension", "λ root mark. (refl, refl, refl)"),
        ]),
        f"fn list_in(root: &Root) -> &Vec<{name}> {{",
        f"    &root.{field}",
        "}",
        "",
        f"fn list_in_mut(root: &mut Root) -> &mut Vec<{name}> {{",
        f"    &mut root.{field}",
        "}",
    ]
