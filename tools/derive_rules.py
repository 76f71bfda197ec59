"""The bodies of functions that say in Rust what a definition in specs/ says.

By hand are the definition, and the signature of the function with its docs and its contract, which
says that the result is what the definition of the function's name gives. The first line of the body
is `// derived`, and what stands behind it up to the closing bracket is derived. A function with
such a contract that is written by hand is in derive_by_hand.py with the reason."""
import re

from blocks import Wrong
from derive_by_hand import BY_HAND
from derive_forms import NoForm
from derive_functions import Functions
from derive_lets import Lets
from derive_names import FINDINGS
from derive_predicates import Cases
from derive_rust import Array, lay_block
from derive_terms import Call, Name, definition, replaced
from sources import ROOT, crate_lines

MARK = "// derived"
LIST = ROOT / "tools" / "derive_by_hand.py"


class Rules:
    """The functions whose contract names the definition of their own name."""

    def __init__(self, sources):
        self.functions = Functions(crate_lines((ROOT / "crates.txt").read_text()), sources)
        self.fallible = {one.name for one in self.functions.all if one.requires}
        self.own = [one for one in self.functions.all if not one.view
                    and one.here[0].startswith(FINDINGS)
                    and head(one).split(".")[-1] == one.name]

    def lines(self, one, depth):
        """The lines of the body of a function."""
        made = definition(head(one))
        if not made and "." not in head(one):
            raise NoForm(f"no `ghost use` line of its file names `{one.name}`")
        if not made:
            raise NoForm("its definition is no function by clauses")
        translator = Cases(self.functions, one)
        values = {name: translator.given(name) for name in one.parameters}
        for name, term in one.equal_parameters(self.functions):
            translator.known[translator.normal(replaced(term, values))] = values[name]
        arguments = one.term.arguments if isinstance(one.term, Call) else ()
        arguments = [translator.normal(replaced(term, values)) for term in arguments]
        node = translator.fitted(translator.unfolded(made, arguments, one.result), one.result)
        if one.length and isinstance(node, Array) and len(node.items) != one.length:
            raise NoForm(f"the definition has {len(node.items)} items, and the array {one.length}")
        node = Lets(node, one.parameters, lambda name: name in self.fallible).made()
        return lay_block(node, depth)


def head(one):
    """The path of the definition that a contract names first."""
    return one.term.text if isinstance(one.term, Name) else one.term.head


def body_of(one, lines):
    """The numbers of the lines that open and close the body of a function."""
    line = lines[one.line - 1]
    front = re.match(" *", line)[0]
    if not re.search(rf"\bfn {one.name}\b", line):
        raise Wrong(one.path, one.line, f"there is no function {one.name}")
    first = next(k for k in range(one.line, len(lines)) if re.match(front + "[{}]", lines[k]))
    if lines[first] != front + "{":
        raise Wrong(one.path, first + 1, f"the body of {one.name} doesn't begin with a line of `{{`")
    return first, lines.index(front + "}", first), len(front) // 4 + 1


def write_rules(sources, files):
    """Writes the bodies with the mark. A function without it is listed."""
    rules = Rules(sources)
    listed = set()
    for one in sorted(rules.own, key=lambda one: (one.path, -one.line)):
        lines = files.lines(one.path)
        first, last, depth = body_of(one, lines)
        is_marked = lines[first + 1].strip() == MARK
        made, why = None, "it is derived"
        try:
            made = rules.lines(one, depth)
        except (NoForm, Wrong) as wrong:
            why = str(wrong)
        if is_marked and made:
            lines[first + 1:last] = [f"{'    ' * depth}{MARK}", *made]
            files.bodies[one.path, one.line] = len(made)
        elif is_marked:
            files.miss(one.path, one.line, f"{one.name} can't be derived: {why}")
        elif one.key() not in BY_HAND:
            files.miss(one.path, one.line, f"{one.name} has a definition of its own name: begin its"
                       f" body with `{MARK}`, or list {one.key()} in {LIST.name} ({why})")
        elif not made or joined(made) != joined(lines[first + 1:last]):
            listed.add(one.key())
    for key in BY_HAND:
        if key not in listed:
            number = next(k for k, line in enumerate(LIST.read_text().split("\n"), 1)
                          if f'"{key}":' in line)
            files.miss(LIST, number, f"the entry of {key} is not needed")


def joined(lines):
    """Lines without what only lays them out."""
    return re.sub(r"\s+|,(?=\s*[)\]}])", "", "".join(lines))
