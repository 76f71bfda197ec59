"""Compares docs/PROMISES.md with the sources.

Each call that a line names is there. Each clause that the line names is a clause of one of these
calls. `gen_promises.py` writes what stands in brackets behind a clause.

`promises.json` has what the clauses and definitions were when somebody last compared them with the
page: a digest of the clauses of each line and of what its calls require, and one of each definition
behind a clause, however far behind. The script ends with status 1 if a name isn't there, or if a
digest has changed.

`--write` records the digests again, after the lines that were printed were looked at.
"""
import hashlib
import json
import re
import sys
from collections import Counter
from dataclasses import dataclass, field

from api_items import ROOT_CRATE, Crates
from settle import parser_of
from sources import ROOT, trait_and_type
from specs import TOKEN, Definitions, bare, paths

PAGE = ROOT / "docs" / "PROMISES.md"
RECORD = ROOT / "tools" / "promises.json"
# Crates whose types only try or show what is promised.
TRIALS = {
    *("gltf_bench", "gltf_corpus", "gltf_corpus_files", "gltf_examples", "gltf_vectors"),
    "gltf_vectors_loading",
}
# What contracts see of a value. A line names one of these only if its clause has nothing else.
VIEW = re.compile(
    r"index_number|item_kind|item_place|kind|members_in|path_of|root_held|root_kind|row_of|"
    r"rules_held|rules_of|steps_of|tree|tree_at|tree_held|under|\w+_(?:members|rows|tree)")
# A line names at most so many definitions behind a clause if its calls have some in common.
MOST = 7
# A clause in a third cell: its name, and the definitions behind it.
CLAUSE = re.compile(
    r"(?:`([^`]+)`|\b(ensures)\b)( of its `Display`)?(?: \((`[^`]+`(?:, `[^`]+`)*)\))?")
# A member of a type: `T.items`, `T.RootItem.tree`, `⟦<Root as Get<T>>⟧.listed`.
MEMBER = re.compile(r"(?:\b[A-Z]\w*|⟧)((?:\.\w+)+)")


@dataclass
class Clause:
    """A clause of a call or a ghost member: its name, its text, the paths that names in it stand
    for, the number of its crate, and the trait that it is in."""
    label: str
    text: str
    uses: dict
    crate: int
    trait: str = ""
    kind: str = "ensures"


@dataclass
class Line:
    """A line of the page."""
    number: int
    cells: list
    clauses: list = field(default_factory=list)

    def named(self):
        """The names of the clauses that it names."""
        return [found[1] or found[2] for found in CLAUSE.finditer(self.cells[2])]

    def of(self, label):
        return [clause for clause in self.clauses if clause.label == label]

    def key(self):
        """Its first call, and a digest of what it says."""
        return f"{re.search('`([^`]+)`', self.cells[0])[1]} {digest(self.cells[:2])}"


def digest(parts):
    return hashlib.sha256("\n".join(parts).encode()).hexdigest()[:8]


def telling(definitions, members):
    """What says most of what a clause uses: definitions, or else ghost members of traits."""
    for names in (definitions, members):
        if found := {name for name in names if not VIEW.fullmatch(name)}:
            return found
    return definitions or members


def meaning(text, uses):
    """What of a text counts: the text, and the paths that its names stand for."""
    text = bare(text)
    return [text, *sorted(paths(text, uses))]


class Sources:
    """The calls, the clauses and the definitions of the crates."""

    def __init__(self):
        self.crates = Crates()
        self.definitions = Definitions()
        # Of each ghost member's name the traits that have it, each with the number of its crate;
        # and the texts that a member has in a crate.
        self.members, self.ghosts = {}, {}
        self.calls, self.reached = {}, {}
        self.order = {crate: at for at, crate in enumerate(self.crates.roots)}
        for root in self.crates.roots.values():
            self.visit(root)

    def visit(self, module):
        """The clauses of each call, by `Type::function` and by the name of a function alone."""
        for item in module.items.values():
            if item.kind == "fn":
                self.add(item.name, item, module, module.ghost_uses)
            elif item.kind == "trait":
                self.block(module, item, item.name, [item.name])
        for block in module.impls:
            trait, target = (name.split("<")[0] for name in trait_and_type(block))
            ghosts = self.block(module, block, trait, [trait, target])
            if trait:
                self.calls.setdefault(target, []).extend(ghosts)
        for inner in module.modules.values():
            self.visit(inner)

    def block(self, module, block, trait, names):
        """A trait or an impl: its calls, and its ghost members, which are returned."""
        uses = {**module.ghost_uses, **block.ghost_uses}
        for name in names:
            for member in block.members:
                self.add(f"{name}::{member.name}", member, module, uses, trait)
        crate = self.order[module.crate]
        ghosts = [Clause(ghost, text, uses, crate, trait)
                  for ghost, text in zip(block.ghosts, block.ghost_texts) if ghost]
        for ghost in ghosts if module.crate not in TRIALS else ():
            name = f"{module.crate} ghost {trait}.{ghost.label}"
            self.ghosts.setdefault(name, []).append((block.signature, ghost))
            if block.kind == "trait":
                self.members.setdefault(ghost.label, {})[trait] = crate
        return ghosts

    def add(self, name, item, module, uses, trait=""):
        crate = self.order[module.crate]
        self.calls.setdefault(name, []).extend(
            Clause(label or kind, text, uses, crate, trait, kind)
            for kind, label, text in item.clauses)

    def clauses_of(self, name):
        """The clauses of a call; `None` if there is no such call."""
        if name.startswith("laws::"):
            found = self.crates.find(self.crates.roots[ROOT_CRATE], name.split("::"))
            if not found or found[0] != "item":
                return None
            crate = self.order[found[1].crate]
            return [Clause(label or kind, text, found[1].ghost_uses, crate, "", kind)
                    for kind, label, text in found[2].clauses]
        return self.calls.get(name)

    def used(self, clause):
        """The definitions that a clause uses, and the ghost members, each as `Trait.member`. Those
        of a trait in a crate above can't be meant."""
        text = bare(clause.text)
        dotted = {name for found in MEMBER.findall(text) for name in found.split(".")}
        members = {f"{trait}.{name}" for name in dotted & self.members.keys()
                   for trait, crate in self.members[name].items() if crate <= clause.crate}
        members |= {f"{clause.trait}.{name}" for name in TOKEN.findall(text)
                    if clause.trait in self.members.get(name, ())}
        return self.definitions.used(text, clause.uses), members

    def short(self, clause):
        """The names of what a clause uses that a line may be asked for: definitions that are no
        types, and ghost members."""
        found, members = self.used(clause)
        known = self.definitions.known
        return ({name.rpartition(".")[2] for name in found if not known[name].is_type()},
                {member.partition(".")[2] for member in members})

    def direct(self, clause):
        """What a clause uses by itself, with a ghost member's texts in each crate."""
        found, members = self.used(clause)
        return found | {name for name in self.ghosts if name.partition(" ghost ")[2] in members}

    def behind(self, name):
        """What a definition or a ghost member uses by itself."""
        if name not in self.reached:
            if found := self.definitions.known.get(name):
                self.reached[name] = self.definitions.used(found.text, found.uses)
            else:
                self.reached[name] = set().union(*(self.direct(c) for _, c in self.ghosts[name]))
        return self.reached[name]

    def all_behind(self, clauses):
        """All that is behind some clauses."""
        found, todo = set(), set().union(*map(self.direct, clauses)) if clauses else set()
        while todo:
            name = todo.pop()
            found.add(name)
            todo |= self.behind(name) - found
        return found

    def digest_of(self, name):
        if found := self.definitions.known.get(name):
            return digest(meaning(found.text, found.uses))
        return digest(sorted("\n".join([head, *meaning(c.text, c.uses)])
                             for head, c in self.ghosts[name]))


class Check:
    """The page against the sources and the record."""

    def __init__(self):
        self.sources = Sources()
        self.faults = []
        self.lines = []
        for number, line in enumerate(PAGE.read_text().split("\n"), 1):
            cells = [cell.strip() for cell in line.strip("|").split(" | ")]
            if line.startswith("| `") and len(cells) == 3:
                self.lines.append(self.line(Line(number, cells)))

    def fault(self, line, text):
        self.faults.append((line.number if line else 0, text))

    def line(self, line):
        """A line with the clauses of its calls; its faults are kept."""
        for name in re.findall(r"`([^`]+)`", line.cells[0]):
            found = self.sources.clauses_of(name)
            if found is None:
                self.fault(line, f"no call {name}")
            line.clauses.extend(found or ())
        named = line.named()
        if not named and "by " not in line.cells[2]:
            self.fault(line, "it names no clause")
        for label in named:
            if not line.of(label):
                known = ", ".join(dict.fromkeys(clause.label for clause in line.clauses))
                self.fault(line, f"no clause {label}; the calls have: {known or 'none'}")
        return line

    def behind(self, line, label):
        """The definitions behind a clause, in the order of its text. If these are many because each
        call has its own, those that several calls use stand for them."""
        clauses = line.of(label)
        order = [part for clause in clauses for token in TOKEN.findall(bare(clause.text))
                 for part in token.split(".")]
        uses = Counter(name for clause in clauses for name in telling(*self.sources.short(clause)))
        shared = {name for name in uses if uses[name] > 1}
        return sorted(shared if shared and len(uses) > MOST else uses, key=order.index)

    def cell(self, line):
        """The third cell of a line, with the definitions behind each clause. An empty cell gets all
        clauses of the line's calls."""
        def written(found):
            names = listed(self.behind(line, found[1] or found[2]))
            front = f"`{found[1]}`" if found[1] else found[2]
            return f"{front}{found[3] or ''}{names and f' ({names})'}"
        return CLAUSE.sub(written, line.cells[2] or all_clauses(line))

    def found(self):
        """The digest of each line's clauses, and the lines of each definition behind them."""
        lines, definitions = {}, {}
        for line in self.lines:
            clauses = line.clauses
            if "and others" not in line.cells[2]:
                clauses = [c for label in line.named() for c in line.of(label)]
                clauses += [c for c in line.clauses if c.kind == "requires"]
            texts = [part for c in clauses for part in (c.label, *meaning(c.text, c.uses))]
            lines[line.key()] = digest(texts)
            for name in self.sources.all_behind(clauses):
                definitions.setdefault(name, []).append(line.number)
        return lines, definitions

    def compare(self, lines, definitions):
        """What has changed since it was recorded."""
        record = json.loads(RECORD.read_text()) if RECORD.exists() else {}
        was = record.get("lines", {})
        for line in self.lines:
            if line.key() not in was:
                self.fault(line, "the line isn't recorded as it stands")
            elif was[line.key()] != lines[line.key()]:
                labels = ", ".join(line.named())
                self.fault(line, f"its clauses changed ({labels})")
        for key in was.keys() - lines.keys():
            self.fault(None, f"recorded, but no line of the page any more: {key}")
        was = flat(record.get("definitions", {}))
        for name, numbers in definitions.items():
            if was.get(name) != self.sources.digest_of(name):
                shown = ", ".join(map(str, numbers[:8])) + (", .." if len(numbers) > 8 else "")
                what = "changed" if name in was else "isn't recorded"
                self.fault(None, f"{name} {what}; it is behind the lines {shown}")
        for name in was.keys() - definitions.keys():
            self.fault(None, f"recorded, but behind no line any more: {name}")


def all_clauses(line):
    """The names of all clauses of a line's calls."""
    named = {c.label: " of its `Display`" if c.trait == "Display" else ""
             for c in line.clauses if c.kind == "ensures"}
    return ", ".join(label if label == "ensures" else f"`{label}`{of}"
                     for label, of in named.items())


def listed(names):
    return ", ".join(f"`{name}`" for name in names)


def flat(definitions):
    """The definitions by their whole names."""
    return {module + name: found for module, names in definitions.items()
            for name, found in names.items()}


def write(check, lines, definitions):
    """Records the digests, of definitions by their modules."""
    modules = {}
    for name in sorted(definitions):
        front, mark, last = name.rpartition(" ghost " if " ghost " in name else ".")
        modules.setdefault(front + mark, {})[last] = check.sources.digest_of(name)
    record = {"lines": dict(sorted(lines.items())), "definitions": modules}
    RECORD.write_text(json.dumps(record, indent=1, ensure_ascii=False) + "\n")


def main():
    parser = parser_of(__doc__)
    parser.add_argument("--write", action="store_true", help="record the digests")
    words = parser.parse_args()
    check = Check()
    lines, definitions = check.found()
    if words.write:
        write(check, lines, definitions)
    else:
        check.compare(lines, definitions)
    for number, text in sorted(check.faults):
        print(f"{PAGE.name}:{number}: {text}" if number else f"{RECORD.name}: {text}")
    print(f"{len(lines)} promises, {len(definitions)} definitions behind them, "
          f"{len(check.faults)} faults")
    if check.faults and not words.write:
        print("If a line, or what is behind it, changed: compare it with its clauses, then run "
              "python3 tools/check_promises.py --write")
    sys.exit(1 if check.faults else 0)


if __name__ == "__main__":
    main()
