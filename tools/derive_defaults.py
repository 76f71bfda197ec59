"""The constants for absent numbers, which gltf_corpus compares with docs/SCHEMA.md."""
import re

from derive_layout import call, header
from derive_names import CORPUS, FACADE, use_line
from derive_sources import CRATES

FILE = CRATES / CORPUS / "src/defaults/derived.rt"


def constant_of(table, made, row):
    """The type with the constant of a row's member, and the constant's name; or None."""
    own = f"DEFAULT_{row.field.upper()}"
    if own in made.constants:
        return made.path(), own
    inner = re.sub(r"^Option<(\w+)>$", r"\1", row.type)
    path = table.path_of(made, inner)
    if table.sources.item(path) and "DEFAULT" in table.sources.constants(path):
        return path, "DEFAULT"
    return None


def write_defaults(table, files):
    """Writes the file: a line for each number, and one for each array of numbers."""
    numbers, arrays, modules = [], [], {}
    for made in sorted(table.objects.values(), key=lambda made: made.name):
        for row in sorted(made.rows, key=lambda row: row.name):
            found = row.kind[0] in ("Number", "Numbers") and constant_of(table, made, row)
            if not found:
                continue
            path, constant = found
            crate, *inner, name = table.sources.public(path)
            modules.setdefault("::".join([FACADE, *inner]), set()).add(name)
            front, lines = ("", numbers) if row.kind == ("Number",) else ("&", arrays)
            said = [f'"{made.name}.{row.name}"', f"{front}{name}::{constant}"]
            made_lines = call("", said, ",", 1)
            files.count(made, made_lines)
            lines += made_lines
    uses = [use_line(module, sorted(names)) for module, names in sorted(modules.items())]
    files.whole(FILE, [
        *header([f"{CRATES.name}/*/specs and {CRATES.name}/*/src"], "//!"), "", *uses, "",
        "/// What one absent number means.",
        "pub const NUMBERS: &[(&str, f64)] = &[", *(f"    {line}" for line in numbers), "];", "",
        "/// What absent arrays of numbers mean.",
        "pub const ARRAYS: &[(&str, &[f64])] = &[", *(f"    {line}" for line in arrays), "];"])
