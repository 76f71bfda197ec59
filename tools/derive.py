"""derive.py [--check] [--report]

Writes what follows from the struct, the rows, the kind and the members of each object of the table,
in files of their own: derive_crate.py says what of its own crate, derive_walk.py and
derive_values.py what of the crates above, derive_reported.py what a law depends on,
derive_defaults.py which constants the corpus compares, derive_choices.py what follows from a
choice of gltf_base, derive_codes.py the list of the codes of findings, and derive_rules.py the
bodies of functions from the definitions of their names. `Drop` has to stand beside the struct: it
is between two marks. What can't be derived is in derive_exceptions.py and derive_by_hand.py, and
the names of crates are in derive_names.py. With `--check` it writes nothing, prints what differs,
and ends with status 1 if a file has another text. With `--report` it only prints how many lines of
each object and how many bodies are derived."""
import re
import sys

from blocks import Wrong
from derive_by_hand import BY_HAND as FUNCTIONS
from derive_choices import write_choices
from derive_codes import write_codes
from derive_crate import Modules
from derive_defaults import write_defaults
from derive_exceptions import BY_HAND
from derive_layout import Files
from derive_objects import Table
from derive_reported import write_reported
from derive_rows import definition_lines
from derive_rules import write_rules
from derive_sources import CRATES
from derive_walk import Walk
from settle import parser_of, settle


def derive(table):
    """The files with their texts as they should be."""
    files = Files()
    Modules(table, files).write()
    Walk(table, files).write()
    write_reported(table, files)
    write_defaults(table, files)
    write_choices(table.sources, files)
    write_codes(files)
    write_rules(table.sources, files)
    made = CRATES.glob("*/*/**/*")
    # What rt keeps of a crate is no text of it.
    for path in sorted(path for path in made if path.relative_to(CRATES).parts[1] != "out"):
        if path.suffix in (".rt", ".antt") and path not in files.after:
            if re.match(r"\S+ Written by tools/derive\.py from", path.read_text()):
                files.miss(path, 1, "nothing derives this file any more: delete it")
    return files


def definitions(made):
    """The lines of an object's struct with its docs, of its rows, its kind and its members."""
    source = made.source().read_text().split("\n")
    first = source.index(f"pub struct {made.name} {{")
    count = source.index("}", first) - first + 1
    while source[first - 1].startswith(("/", "#")):
        first, count = first - 1, count + 1
    names = [f"{made.base}_rows", made.kind, f"{made.base}_members"]
    return count + sum(1 + len(definition_lines(made.spec_path(), name)) for name in names)


def report(table, files):
    """Prints how many lines of each object are derived, and how many define it: its struct with
    docs, its rows, kind and members. The lines of a factor count for the first object that has
    it. Then it prints how many bodies of functions are derived."""
    sums = [0, 0]
    print(f"{'object':<26} derived  definitions")
    for made in table.objects.values():
        row = [files.derived.get(made.base, 0), definitions(made)]
        print(f"{made.base:<26} {row[0]:>7}  {row[1]:>11}")
        sums = [one + two for one, two in zip(sums, row)]
    print(f"{len(table.objects)} objects: {sums[0]} lines are derived, {sums[1]} define them")
    print("written by hand (tools/derive_exceptions.py):")
    for (of, what), reason in BY_HAND.items():
        print(f"  {of}, {what}: {reason}")
    count = sum(files.bodies.values())
    print(f"{len(files.bodies)} functions have derived bodies, of {count} lines")
    print("written by hand (tools/derive_by_hand.py):")
    for name, reason in FUNCTIONS.items():
        print(f"  {name}: {reason}")


def run():
    parser = parser_of(__doc__)
    parser.add_argument("--check", action="store_true", help="write nothing, and compare")
    parser.add_argument("--report", action="store_true", help="only count lines")
    words = parser.parse_args()
    table = Table()
    if table.problems:
        sys.exit("\n".join(table.problems))
    files = derive(table)
    if words.report:
        report(table, files)
        return
    changed = files.changed()
    for problem in files.problems:
        print(problem)
    if not changed and not files.problems:
        print(f"{len(files.after)} files have the lines that derive.py writes")
    for path in [] if words.check else changed:
        print(f"{path.relative_to(CRATES.parent)} is written")
        path.parent.mkdir(parents=True, exist_ok=True)
    settle(changed, words.check)
    sys.exit(1 if files.problems else 0)


def main():
    try:
        run()
    except Wrong as wrong:
        sys.exit(str(wrong))


if __name__ == "__main__":
    main()
