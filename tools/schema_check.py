"""Compares the table of docs/SCHEMA.md with the rows in `specs/`: each object of the definitions has
an object of the page with the same members and marks. The page isn't made from the definitions, so
that each is a witness for the other."""
import sys

from derive_objects import Table
from settle import parser_of
from table import OBJECTS

# The page's sign for each mark of the definitions.
SIGNS = {"required": "!", "optional": "?", "always": "=", "unless": "~", "sometimes": "~",
         "or_null": "n"}


def main():
    parser_of(__doc__).parse_args()
    made = Table()
    if made.problems:
        sys.exit("\n".join(made.problems))
    listed = {frozenset((name, mark) for name, mark, *_ in rows) for rows in OBJECTS.values()}
    faults = [one for one in made.objects.values()
              if frozenset((row.name, SIGNS[row.mark[0]]) for row in one.rows) not in listed]
    for one in faults:
        rows = ", ".join(f"{row.name} {SIGNS[row.mark[0]]}" for row in one.rows)
        print(f"docs/SCHEMA.md: no object has the members of {one.name} "
              f"({one.spec_path().relative_to(one.spec_path().parents[3])}): {rows}")
    if not faults:
        print(f"docs/SCHEMA.md has the members of {len(made.objects)} objects")
    sys.exit(1 if faults else 0)


if __name__ == "__main__":
    main()
