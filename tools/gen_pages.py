"""Writes docs/api/: a page for each public module of the crates that users name, with each item in
full: its docstring, its signature, what its call requires, what its clauses promise in the words of
docs/PROMISES.md, the example that docs/GUIDE.md names, and a link to its line in the source.

An item has a section under the name that users write, on the page of the deepest module that names
it. docs/api/INDEX.md lists all items and their functions by name. The script fails if a page has two
equal headings, or if a name that a crate exports has no section.

`python3 tools/gen_pages.py` writes the pages; `--check` says whether they are current, and ends with
status 1 and a short diff if one isn't.
"""
import functools
import re
import sys

from api_items import Items, within
from run_readme import rows_of
from settle import is_check, settle
from sources import ROOT, trait_and_type

FOLDER = ROOT / "docs" / "api"
CRATES = ["gltf_json", "gltf_load", "gltf_accessors", "gltf_buffers", "gltf_accessors", "gltf_findings",
          "gltf_findings_files", "gltf_findings_lines", "gltf_findings_members", "gltf_buffers",
          "gltf_hierarchy", "gltf_layout", "gltf_report_lines", "gltf_findings_lines", "gltf_report_lines",
          "gltf_hierarchy"]
HEAD = "<!-- Written by tools/gen_pages.py from the sources. -->\n"
GUIDE = ROOT / "docs" / "GUIDE.md"
PROMISES = ROOT / "docs" / "PROMISES.md"
# What the guide's table writes without its type is a call of this one.
USUAL_OWNER = "Root"


def file_name(path):
    return ".".join(path) + ".md"


def anchor(title):
    """What a heading is called in a link, as GitHub writes it."""
    return re.sub(r"[^\w\- ]", "", title.lower()).replace(" ", "-")


def examples():
    """The programs that show a call or a type, by its name with its type's, from the guide's table."""
    found = {}
    for calls, files in rows_of(GUIDE.read_text()):
        owner = USUAL_OWNER
        for call in calls:
            *front, name = call.split("::")
            owner = front[-1] if front else owner
            for file in files:
                if re.search(rf"\b{name}\b", file.read_text()):
                    key = name if name[0].isupper() else f"{owner}::{name}"
                    found.setdefault(key, file.relative_to(ROOT).as_posix())
    return found


def promises():
    """What docs/PROMISES.md promises of each call: the words of a line, and the names of clauses."""
    found = {}
    rows = re.findall(r"(?m)^\| ([^|]*`[^|]*) \| ([^|]+) \| ([^|]+) \|$", PROMISES.read_text())
    for calls, words, clauses in rows:
        names = re.findall(r"`(\w+)`|\bensures\b", re.sub(r"\([^)]*\)", "", clauses))
        for call in re.findall(r"`([\w:]+)`", calls):
            key = "::".join(call.split("::")[-2:])
            found.setdefault(key, []).append((words, [name or "result" for name in names]))
    return found


class Pages(Items):
    """The pages of one crate. `listed` has the sections: a name, its link and its first sentence."""

    def __init__(self, crate, shown, promised):
        super().__init__(crate)
        self.shown, self.promised, self.listed = shown, promised, []

    def pages(self):
        return {FOLDER / file_name(path): self.page(path, doc, names)
                for path, doc, names in self.modules}

    def page(self, path, doc, names):
        """A module: its items with a sentence each, then each item in full."""
        items, others = self.sorted_items(path, names)
        lines = [HEAD, f"# `{'::'.join(path)}`", "", doc, ""]
        inner = [other for other, _, _ in self.modules if other[:-1] == path]
        if inner:
            links = [f"[`{other[-1]}`]({file_name(other)})" for other in inner]
            lines += [f"Modules: {', '.join(links)}.", ""]
        if items:
            lines += ["| Item | What it is |", "|---|---|"]
            lines += [f"| [`{name}`](#{anchor(self.title(name, item))}) | {cell(item.doc)} |"
                      for name, item, _ in items]
            lines.append("")
        if others:
            lines += [f"Also named here: {', '.join(others)}.", ""]
        for name, item, behind in items:
            lines += self.item(path, name, item, behind)
        check_headings(path, lines)
        return "\n".join(lines).rstrip("\n") + "\n"

    def sorted_items(self, path, names):
        """The items that are shown here, and the names that belong to another module."""
        items, others = [], []
        for name in sorted(names, key=str.lower):
            found = names[name]
            if found[0] == "kit":
                if found[1].split("::")[0].startswith("gltf_"):
                    sys.exit(f"{'::'.join(path)}: nothing is known of {name} ({found[1]})")
                others.append(f"`{name}` (of `{found[1].split('::')[0]}`)")
            elif self.places[id(found[2])][2:] != (path, name):
                place, own = self.places[id(found[2])][2:]
                title = self.title(own, found[2])
                others.append(f"[`{name}`]({file_name(place)}#{anchor(title)})")
            else:
                items.append((name, found[2], self.only_behind(found)))
        return items, others

    def blocks_of(self, item):
        """The impls of a type."""
        return self.blocks.get(id(item), []) if item.kind in ("struct", "enum") else []

    def functions(self, item):
        """The public functions of a type, each with the impl that it is in."""
        return [(block, made) for block in self.blocks_of(item) if not trait_and_type(block)[0]
                for made in block.members if made.public]

    @functools.cached_property
    def function_links(self):
        """What the sections of all functions are called in links."""
        return {anchor(f"{name}::{made.name}") for _, _, names in self.modules
                for name, found in names.items() if found[0] == "item"
                for _, made in self.functions(found[2])}

    def title(self, name, item):
        """What the section of an item is called: its name, unless a function's has the same link."""
        return f"{name} ({item.kind})" if anchor(name) in self.function_links else name

    def list(self, path, name, title, doc):
        self.listed.append((name, f"{file_name(path)}#{anchor(title)}", cell(doc)))

    def item(self, path, name, item, behind):
        title = self.title(name, item)
        self.list(path, name, title, item.doc)
        lines = [f"## {title}", "", *prose(item.docs), ""]
        if name != item.name:
            lines += [f"It is declared as `{item.name}`.", ""]
        lines += ["```rust", *self.declaration(item), "```", "", *self.facts(item, item.name)]
        shown = behind or item
        heads = {trait_and_type(block)[0] for block in self.blocks_of(shown)}
        traits = self.traits(set(shown.derives) | heads)
        if traits:
            lines += [f"Implements {', '.join(f'`{one}`' for one in traits)}.", ""]
        own = self.functions(shown)
        for block, made in own:
            # Functions of one name, for several parameters, are told apart by the type.
            twice = sum(made.name == other.name for _, other in own) > 1
            of = trait_and_type(block)[1] if twice else name
            lines += self.method(path, of, item.name, made)
        for made in item.members if item.kind == "trait" else []:
            lines += self.method(path, name, item.name, made)
        return lines

    def method(self, path, owner, declared, made):
        """A function or a constant of an item, which `declared` is the own name of."""
        end = "" if made.kind == "fn" else ";"
        self.list(path, f"{owner}::{made.name}", f"{owner}::{made.name}", made.doc)
        return [f"### {owner}::{made.name}", "", *prose(made.docs), "",
                "```rust", *within(f"{made.signature}{end}"), "```", "",
                *self.facts(made, f"{declared}::{made.name}")]

    def facts(self, item, name):
        """What a call requires and promises, its example and its place."""
        lines = []
        for kind, _, text in item.clauses:
            if kind == "requires":
                lines += [f"Requires `{' '.join(text[1:-1].split())}`.", ""]
        lines += self.proved(item, name)
        # A call of a document's lists is shown at the document.
        shown = self.shown.get(name) or self.shown.get(name.replace("Get::", f"{USUAL_OWNER}::"))
        if shown:
            lines += [f"Example: [`{shown}`](../../{shown}).", ""]
        if item.place:
            file, line = item.place
            lines += [f"[{file}:{line}](../../{file}#L{line})", ""]
        return lines


    def proved(self, item, name):
        """A line for each promise of a call, and the names of the clauses that none speaks of."""
        clauses = [label or "result" for kind, label, _ in item.clauses if kind == "ensures"]
        if not clauses:
            return []
        lines, spoken = [], set()
        for words, names in self.promised.get(name, []):
            here = [one for one in names if one in clauses]
            spoken.update(here)
            if here:
                lines.append(f"- {listed(here)}: {words}")
        rest = [one for one in clauses if one not in spoken]
        if not lines:
            return [f"Proved: {listed(rest)}.", ""]
        if rest:
            lines.append(f"- {listed(rest)}")
        return ["Proved ([docs/PROMISES.md](../PROMISES.md)):", "", *lines, ""]


def check_headings(path, lines):
    """Ends the script if a page has two equal headings, between which no link can choose."""
    seen, in_code = set(), False
    for line in lines:
        in_code ^= line.startswith("```")
        if line.startswith("#") and not in_code:
            name = anchor(line.lstrip("# ").replace("`", ""))
            if name in seen:
                sys.exit(f"docs/api/{file_name(path)} has two headings: {line}")
            seen.add(name)


def listed(names):
    return ", ".join(f"`{one}`" for one in names)


def cell(text):
    return prose([text])[0].replace("|", "\\|")


def prose(docs):
    """A docstring as a page has it: its links are names."""
    return [re.sub(r"\[(`[^`]*`)\](\([\w:]*\))?", r"\1", line) for line in docs]


def contents(pages):
    lines = [HEAD, "# API", "", "A page for each module of the crates that users name, and an "
             "[index of all items](INDEX.md) with their functions. What a call promises is written "
             "beside it; [PROMISES.md](../PROMISES.md) has all promises on one page.", ""]
    for crate in CRATES:
        lines += [f"## `{crate}`", ""]
        names = [path.name for path in pages if path.name.split(".")[0] == crate]
        lines += [f"- [`{'::'.join(name.split('.')[:-1])}`]({name})" for name in names]
        lines.append("")
    return "\n".join(lines).rstrip("\n") + "\n"


def index(listed_items):
    """All items and their functions, by name."""
    lines = [HEAD, "# Index", "", "All items that users name, with their functions, by name. An item "
             "that several crates name stands here once for each of them.", "",
             "| Name | In | What it is |", "|---|---|---|"]
    for name, link, doc in sorted(listed_items, key=lambda one: (one[0].lower(), one[1])):
        module = "::".join(link.partition("#")[0].split(".")[:-1])
        lines.append(f"| [`{name}`]({link}) | `{module}` | {doc} |")
    return "\n".join(lines) + "\n"


def main():
    check = is_check(__doc__)
    pages, shown, promised, listed_items = {}, examples(), promises(), []
    for crate in CRATES:
        made = Pages(crate, shown, promised)
        pages.update(made.pages())
        listed_items += made.listed
    pages[FOLDER / "README.md"] = contents(pages)
    pages[FOLDER / "INDEX.md"] = index(listed_items)
    FOLDER.mkdir(exist_ok=True)
    settle(pages, check)
    old = [path for path in FOLDER.glob("*.md") if path not in pages]
    for path in old:
        print(f"{path.relative_to(ROOT)} is no module's page any more")
        if not check:
            path.unlink()
    sys.exit(1 if old and check else 0)


if __name__ == "__main__":
    main()
