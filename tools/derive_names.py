"""The crates that derived text names, the modules of what it uses, and the `use` lines that follow
from the words of a text. No other file of the derive scripts names a crate."""
import re
import textwrap

LINE = 100

# The crates, by what they have.
SCHEMA, RULES, ROOT_CRATE = "gltf_schema", "gltf_validation_rules", "gltf_root"
OBJECTS, VALUES, VALIDATION = "gltf_validation_objects", "gltf_validation_walk", "gltf_validation"
BASE, CORPUS, FACADE = "gltf_base", "gltf_corpus", "gltf_json"

# The crates whose functions follow from the definitions of their names begin so.
FINDINGS = "gltf_findings"

# Definitions of std, the kit and the crates without objects, by their modules.
MODULES = {
    "Rattle.std.specs.Prelude":
        "◌≡◌ ◌+◌ ◌<◌ ◌^◌ ◌&&◌ Bool true false codes refl [] ◌∷◌ ⊤ Some None List ℕ",
    "Rattle.std.proofs.Common": "lit≤ ap",
    "Rattle.serde_json.specs.Data": "no_members",
    "Rattle.serde_json.specs.View": "members_view",
    f"Rattle.{BASE}.specs.Lists": "ListName",
    f"Rattle.{BASE}.specs.Steps": "field",
    f"Rattle.{RULES}.specs.Rules": "accessor_rule light_rule",
    f"Rattle.{OBJECTS}.proofs.Leaves": "found_leaf",
    f"Rattle.{OBJECTS}.proofs.Items": "items_same",
    f"Rattle.{SCHEMA}.specs.Tree": "absent items_in tree_or_absent",
    f"Rattle.{SCHEMA}.specs.Kind":
        "Number Numbers ListOf IndexInto Attributes",
    f"Rattle.{SCHEMA}.specs.Defaults": "defaults",
    f"Rattle.{SCHEMA}.specs.Sound": "is_sound",
    f"Rattle.{SCHEMA}.specs.Height": "IsHigh IsFlat",
    f"Rattle.{SCHEMA}.specs.Nulls": "without_nulls",
    f"Rattle.{SCHEMA}.specs.Floats": "float_or floats_or",
    f"Rattle.{SCHEMA}.specs.Fields":
        "closed_object list_tree real_tree reals_tree index_tree text_tree attributes_tree",
    f"Rattle.{RULES}.specs.Context": "Context context_of",
    f"Rattle.{OBJECTS}.specs.Checklist": "Checklist place leaf quiet move_at down",
    f"Rattle.{OBJECTS}.specs.ChecklistOf":
        "checklist entry_checklist at_positions item_checklists name_checklist faults_checklist",
    f"Rattle.{OBJECTS}.specs.References":
        "reference_checklist one_texture two_textures material_checklist extensions_checklist",
    f"Rattle.{OBJECTS}.specs.MemberNames": "member_text",
    f"Rattle.{OBJECTS}.specs.ValueRefs": "checklist_of is_looked_at IsNumbered",
    f"Rattle.{OBJECTS}.specs.Moves": "IsGiven IsMore",
}

# Types, traits and functions that derived code uses, by their paths.
RUST = {
    f"{SCHEMA}": "Object ReadRows StrictObject StrictRows WriteRows Tabled",
    f"{BASE}": "Step",
    f"{RULES}": "Context HasContext data_fault position_faults projection_fault source_fault "
                 "spot_fault",
    "std::alloc": "Global",
    "crate::always_valid": "AlwaysValid",
    "crate::event": "EventBuilder",
    "crate::events": "Events",
    "crate::lists": "are_channels_quiet are_names_quiet are_positions_quiet",
    "crate::material": "parameters_ref",
    "crate::member_name": "MemberName",
    "crate::list_item": "ListItem",
    "crate::quiet": "Quiet is_object_quiet",
    "crate::references":
        "ReferenceState TextureReference index_state is_reference_quiet member_state",
    "crate::value_ref": "ValueRef",
    "crate::visitable": "Visitable",
}
# The types that variants of `ValueRef` hold.
VALUE_TYPES = {
    "Error": f"{BASE}::validation", "Checked": f"{BASE}::validation", "Index": BASE,
    "Semantic": f"{BASE}::mesh", "BTreeMap": "std::collections", "PositionFaults": RULES,
    "MaterialFaults": "crate::material", "ReferenceState": "crate::references",
    "MemberName": "crate::member_name",
}
WORD = re.compile(r"[^\s(){}\[\],;]+")
OPERATORS = {"≡": "◌≡◌", "∷": "◌∷◌", "&&": "◌&&◌", "+": "◌+◌", "<": "◌<◌", "^": "◌^◌"}
# A ghost member or a clause, with its text.
GHOST = re.compile(r"(?:ghost \w+ =|ensures(?: \w+)?|requires) \{((?:[^{}]|\{[^{}]*\})*)\};?")
# The first word of a path in Rust.
FIRST = re.compile(r"(?<![\w.:'])(?<!\bfn )(?<!\blet )[A-Za-z_]\w*")


def table_of(modules):
    """The module of each name."""
    return {name: module for module, names in modules.items() for name in names.split()}


GHOST_NAMES, RUST_NAMES = table_of(MODULES), table_of(RUST)


def ghost_words(text):
    """The first words of the names in a text of Antt."""
    text = re.sub(r'"[^"]*"', "", text)
    words = {OPERATORS.get(word, word.partition(".")[0]) for word in WORD.findall(text)}
    return words | ({"[]"} if "[]" in text else set())


def rust_words(text):
    """The first words of the paths in a text of Rust, without comments, texts and attributes."""
    return set(FIRST.findall(re.sub(r'//[^\n]*|"[^"]*"|#\[[^\]]*\]', "", text)))


def used(words, modules):
    """The words that are names, by their modules, both sorted."""
    found = {}
    for name in sorted(words & modules.keys()):
        found.setdefault(modules[name], []).append(name)
    return sorted(found.items())


def antt_uses(text, modules):
    """The `use` lines of a file in `specs/` or `proofs/`."""
    return [f"use {module}.{{{', '.join(names)}}}"
            for module, names in used(ghost_words(text), modules)]


def tactic_names(module, name):
    """The path of a definition in an attribute."""
    return f"{module.replace('.', '::')}::{name}"


def rust_uses(lines, ghosts, paths, more=()):
    """The `ghost use` lines and the `use` lines of a file in `src/`. `more` are traits whose
    methods it calls."""
    text = "\n".join(lines)
    ghost_text = " ".join(GHOST.findall(text))
    ghost_lines = [f"ghost use {module}.{{{', '.join(names)}}};"
                   for module, names in used(ghost_words(ghost_text), ghosts)]
    words = rust_words(GHOST.sub("", text)) | set(more)
    use_lines = sorted((use_line(module, names) for module, names in used(words, paths)),
                       key=lambda line: (not re.match(r"use super\b", line),
                                         not re.match(r"use crate\b", line), line))
    parts = [ghost_lines, "\n".join(use_lines).split("\n") if use_lines else []]
    return [line for part in parts if part for line in [*part, ""]]


def use_line(module, names):
    """A `use` line, in several lines if it is long."""
    if len(names) == 1:
        return f"use {module}::{names[0]};"
    line = f"use {module}::{{{', '.join(names)}}};"
    if len(line) <= LINE:
        return line
    inner = textwrap.fill(f"{', '.join(names)},", LINE, initial_indent="    ",
                          subsequent_indent="    ")
    return f"use {module}::{{\n{inner}\n}};"
