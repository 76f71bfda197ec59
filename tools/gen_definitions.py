"""Writes docs/DEFINITIONS.md: what a reader has to believe.

The definitions are those behind the clauses that docs/PROMISES.md names, as `check_promises.py`
finds them. What a file defines is the comment with which it begins. `--check` compares the page
with both, and ends with status 1 if it has another text.
"""
import sys
from collections import defaultdict

from check_promises import Check
from settle import is_check, settle
from sources import ROOT

PAGE = ROOT / "docs" / "DEFINITIONS.md"
MARK = "Written by tools/derive"
HEAD = """# What a reader has to believe

This page is for a reader who asks what the promises of [PROMISES.md](PROMISES.md) mean. Each promise \
is a clause of a contract. These definitions, and the ghost members at the end, are all that stands \
behind the clauses. Everything else is proved from them, and from the statements of the kit's crates \
that [README.md](../README.md) lists. `tools/gen_definitions.py` writes the page.

A crate comes after the crates that it depends on. The files at the end of a crate define what no \
line of PROMISES.md uses.
"""
GHOSTS = """
## Ghost members of traits

A ghost member is a definition that each type gives beside its code, and most only name one of the \
above. A wrong one makes a contract say something else, as a wrong definition does.

| Trait | Ghost members behind promises | Crates with types that give them |
|---|---|---|
"""


def crates_in_order():
    """The crates that have definitions, each behind those that it depends on."""
    lines = (ROOT / "crates.txt").read_text().split("\n")
    uses = {name.split()[0]: below.split() for name, mark, below in
            (line.partition(":") for line in lines if not line.startswith("#")) if mark}
    done = []
    while len(done) < len(uses):
        done.append(next(name for name, below in uses.items() if name not in done
                         and all(one in done for one in below if one in uses)))
    return [name for name in done if (ROOT / "crates" / name / "specs").is_dir()]


def comment_of(file):
    """The comment with which a file begins."""
    lines = []
    for line in file.read_text().split("\n"):
        if not line.startswith("--"):
            break
        lines.append(line.removeprefix("--").strip())
    if not lines:
        sys.exit(f"{file.relative_to(ROOT)}: it begins with no comment")
    return " ".join(lines).replace("|", "\\|")


def split(names):
    """The names of definitions by their files, and the crates of ghost members by their traits."""
    files, ghosts = defaultdict(list), defaultdict(lambda: defaultdict(set))
    for name in sorted(names):
        crate, mark, member = name.partition(" ghost ")
        if mark:
            trait, _, ghost = member.partition(".")
            ghosts[trait][ghost].add(crate)
        else:
            module, _, last = name.rpartition(".")
            files[module].append(last)
    return files, ghosts


def crate_lines(crate, files):
    """The part of the page for a crate."""
    rows, rest = [], []
    folder = ROOT / "crates" / crate / "specs"
    for file in sorted(folder.glob("**/*.antt")):
        module = ".".join(file.relative_to(folder).with_suffix("").parts)
        if module == "Lib":
            continue
        link = f"[`{module}`](../{file.relative_to(ROOT)})"
        if names := files.get(f"{crate}.{module}"):
            what = comment_of(file)
            what = "Derived from the objects by a script." if MARK in what else what
            rows.append(f"| {link} | {what} | {', '.join(f'`{name}`' for name in names)} |")
        elif MARK not in comment_of(file):
            rest.append(link)
    if not rows:
        return []
    lines = ["", f"## {crate}", "", "| File | What it defines | Definitions behind promises |",
             "|---|---|---|", *rows]
    return lines + (["", f"Used by no line: {', '.join(rest)}."] if rest else [])


def text():
    check = Check()
    files, ghosts = split(check.found()[1])
    lines = [HEAD.rstrip("\n")]
    for crate in crates_in_order():
        lines += crate_lines(crate, files)
    lines.append(GHOSTS.rstrip("\n"))
    for trait, members in sorted(ghosts.items()):
        crates = sorted(set().union(*members.values()))
        lines.append(f"| `{trait}` | {', '.join(f'`{name}`' for name in sorted(members))} "
                     f"| {', '.join(f'`{name}`' for name in crates)} |")
    return "\n".join(lines) + "\n"


def main():
    check = is_check(__doc__)
    settle({PAGE: text()}, check)


if __name__ == "__main__":
    main()
