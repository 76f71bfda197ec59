"""Writes into docs/PROMISES.md what stands in brackets behind each clause in the third cell of a line:
the definitions of `specs/` that the clause's text uses, as in `` `printed` (`IsCompactOf`) ``. Where
it uses none, these are ghost members of a trait. Where the third cell is empty, because a line speaks
of all clauses of its calls, it gets them all. It also writes how many cases the corpus has of each
kind.

`python3 tools/gen_promises.py` writes them; `--check` says whether they are current, and ends with
status 1 and a short diff if they aren't. The rest of the page is by hand.
"""
import re

from check_promises import PAGE, Check
from corpus import DATA
from settle import is_check, settle

# What the page says in front of and behind the number of cases of a file.
CASES = {"findings": ("over ", " documents: one for each rule"), "files": ("with ", " `.glb` files"),
         "uris": ("with ", " documents for URIs"), "notices": ("with ", " for notices of each code")}


def counted(text):
    """The page with the number of cases in each file of the corpus that it speaks of."""
    for name, (front, behind) in CASES.items():
        count = len((DATA / f"{name}.jsonl").read_text().splitlines())
        text, found = re.subn(rf"{front}[0-9,]+(?={behind})", f"{front}{count:,}", text)
        assert found == 1, f"{PAGE.name} must say once how many cases {name}.jsonl has"
    return text


def main():
    check = is_check(__doc__)
    lines, promises = PAGE.read_text().split("\n"), Check()
    for line in promises.lines:
        *front, _ = line.cells
        lines[line.number - 1] = f"| {' | '.join(front)} | {promises.cell(line)} |"
    settle({PAGE: counted("\n".join(lines))}, check)


if __name__ == "__main__":
    main()
