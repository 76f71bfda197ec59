"""What follows from a factor, a struct of one public field that is an option of numbers: its value
as floats, its kind and its tree. Its `DEFAULT` is written by hand, with its law."""
import re

from derive_exceptions import BY_HAND, NUMBER_NAMES
from derive_layout import block, ghosts
from derive_sources import CRATES

# What the numbers are called, by how many there are.
NAMES = {2: "xy", 3: "rgb", 4: "rgba"}


def count_of(type_text):
    """How many numbers an option holds, or None for a number alone."""
    count = re.fullmatch(r"Option<\[Real; (\d+)\]>", type_text)
    return int(count.group(1)) if count else None


def value_of(owner, count, names, member, prefix="", constant="DEFAULT"):
    """The function that returns the numbers of a member as floats, or the constant of `owner`."""
    if count is None:
        doc, head, floats = "number as a float", f"{prefix}value(&self) -> f64", "float_or"
        found, made, be = "Some(number)", "number.as_f64()", "it is"
    else:
        doc, floats, be = "numbers as floats", "floats_or", "they are"
        head = f"{prefix}values(&self) -> [f64; {count}]"
        found = f"Some([{', '.join(names)}])"
        made = f"[{', '.join(f'{name}.as_f64()' for name in names)}]"
    return [
        f"/// The {doc}, or [`{owner}::{constant}`] if {be} absent.",
        f"pub fn {head}",
        f"    ensures {{ result ≡ {floats} Self.{constant} self.now.{member} }}",
        "{",
        f"    match &self.{member} {{",
        f"        {found} => {made},",
        f"        None => {owner}::{constant},",
        "    }",
        "}",
    ]


def object_values(made):
    """The values of an object's optional numbers for which it has a default."""
    parts = []
    for row in made.rows:
        constant = f"DEFAULT_{row.field.upper()}"
        if re.fullmatch(r"Option<(Real|\[Real; \d+\])>", row.type) and constant in made.constants:
            count = count_of(row.type)
            names = NUMBER_NAMES.get((made.base, row.field), NAMES.get(count, ""))
            parts += ["", *value_of(made.name, count, names, row.field, f"{row.field}_", constant)]
    return block(f"impl {made.name}", parts[1:]) if parts else []


class Factor:
    """A factor: the path of its struct, and how many numbers it holds, or None for a number alone.
    It counts as a part of the first object that has a field of it."""

    def __init__(self, path, holds):
        self.path, self.name = path, path[-1]
        self.count = count_of(holds)

    def value(self):
        return block(f"impl {self.name}", value_of(
            self.name, self.count, NAMES.get(self.count, ""), "0"))

    def tabled(self):
        kind = "Number" if self.count is None else f"Numbers {self.count}"
        tree = "real_tree" if self.count is None else "reals_tree"
        return block(f"impl Tabled for {self.name}", ghosts([
            ("kind", kind), ("tree", f"λ factor. tree_or_absent {tree} factor.0")]))

    def write(self, modules, made):
        crate, *module, _ = self.path
        if (self.name, "value") not in BY_HAND:
            if "DEFAULT" not in modules.table.sources.constants(self.path):
                file = (CRATES / crate / "src").joinpath(*module).with_suffix(".rt")
                modules.files.miss(file, 1, f"{self.name} has no 'pub const DEFAULT', which its "
                                   "value is where the number is absent")
            modules.add(made, crate, module, self.value())
        modules.add(made, crate, module, self.tabled())
