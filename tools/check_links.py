"""Checks the links between the repository's pages: each file is there, each heading that a link
names is in its page, and each line of a source is within the file.

On the pages that a newcomer reads (`LINKED`) what is ours has a link where it is first mentioned, so
that a reader gets to it by one click. Looked at are code spans outside of headings and of blocks of
code. Ours is

- a file or a folder of the repository, by its path from the top, or by its name with the ending if
  no other file has that name: `docs/LINT.md`, `LINT.md`, `next_report.rt`, but not `main.rt`
- a crate; its link leads to its page in docs/api or in docs, or into its folder
- an item or a call of docs/api/INDEX.md, with or without the path of its module: `Clean`,
  `Root::from_slice`, `gltf_load::Glb`, `local_matrix`. A method without its type isn't looked at,
  since `push` and `new` may be anybody's

A span is fine if it is the text of a link, or if a link before it on the page leads to the same. A
page needs no link to itself.
"""
import re
import sys

from gen_pages import CRATES, anchor
from settle import parser_of
from sources import ROOT, crate_lines

PAGES = [*ROOT.glob("*.md"), *ROOT.glob("docs/**/*.md"), *ROOT.glob("examples/**/*.md")]
LINKED = ("README.md", "docs/GUIDE.md", "docs/LINT.md", "docs/ARCHITECTURE.md")
LINK = re.compile(r"\[([^\]]*)\]\(([^()\s]+)\)")
SPAN = re.compile(r"`([^`\n]+)`")
BLOCK = re.compile(r"(?ms)^```.*?^```$")
HEADING = re.compile(r"(?m)^#+ .*$")
# The pages of crates whose calls have no page in docs/api.
MANUALS = {"gltf_c": "docs/C.md", "gltf_lint": "docs/LINT.md"}
# What isn't in the repository, or only while something runs.
PASSING = {".git", "out", "__pycache__"}


def anchors(path):
    """The names of a page's headings, as links have them."""
    text = BLOCK.sub("", path.read_text())
    return {anchor(title.replace("`", "")) for title in re.findall(r"(?m)^#+ (.*)$", text)}


def fault(page, link):
    """What is wrong with a link, or nothing."""
    target, _, name = link.partition("#")
    path = (page.parent / target).resolve() if target else page
    if not path.exists():
        return f"there is no {target}"
    if path.suffix == ".md" and name and name not in anchors(path):
        return f"no heading of {path.relative_to(ROOT)} is #{name}"
    line = re.fullmatch(r"L(\d+)", name)
    if line and int(line.group(1)) > len(path.read_text().split("\n")):
        return f"{target} has no line {line.group(1)}"
    return None


class Ours:
    """What of ours has a name: for each name the places to which a link of it may lead, as paths
    from the top, with headings."""

    def __init__(self):
        self.places, files = {}, {}
        for path in ROOT.rglob("*"):
            parts = path.relative_to(ROOT).parts
            if not PASSING & set(parts):
                whole = "/".join(parts)
                if len(parts) > 1 or path.suffix or path.is_file():
                    self.add(whole, whole)
                if path.is_file() and path.suffix:
                    files.setdefault(path.name, []).append(whole)
        for name, found in files.items():
            if len(found) == 1:
                self.add(name, found[0])
        for name in crate_lines((ROOT / "crates.txt").read_text()):
            if name in CRATES:
                self.add(name, f"docs/api/{name}.md")
            if name in MANUALS:
                self.add(name, MANUALS[name])
            self.add(name, f"crates/{name}")
        index = (ROOT / "docs" / "api" / "INDEX.md").read_text()
        for name, link, module in re.findall(r"(?m)^\| \[`(.+?)`\]\((.+?)\) \| `(.+?)` \|", index):
            for spelled in (name, f"{module}::{name}"):
                self.add(spelled, f"docs/api/{link}")

    def add(self, name, place):
        places = self.places.setdefault(name, [])
        if place not in places:
            places.append(place)

    def is_ours(self, span):
        return span.rstrip("/") in self.places

    def is_led_to(self, span, links):
        """Whether one of these links leads to what a span names: to its place, or into it."""
        return any(link == place or link.startswith((f"{place}/", f"{place}#"))
                   for place in self.places[span.rstrip("/")] for link in links)


def unlinked(page, ours):
    """The spans of a page that lack a link, each at its first mention."""
    text = HEADING.sub("", BLOCK.sub("", page.read_text()))
    events = [(found.start(), found, None) for found in LINK.finditer(text)]
    inside = [(found.start(1), found.end(1)) for found in LINK.finditer(text)]
    events += [(found.start(), None, found[1]) for found in SPAN.finditer(text)
               if not any(start <= found.start() < end for start, end in inside)]
    links, seen = {page.relative_to(ROOT).as_posix()}, set()
    for _, link, span in sorted(events, key=lambda event: event[0]):
        if link and "://" not in link[2]:
            target, mark, name = link[2].partition("#")
            path = (page.parent / target).resolve() if target else page
            links.add(f"{path.relative_to(ROOT).as_posix()}{mark}{name}")
            seen.update(SPAN.findall(link[1]))
        elif span and span not in seen and ours.is_ours(span):
            seen.add(span)
            if not ours.is_led_to(span, links):
                yield span, ours.places[span.rstrip("/")]


def main():
    parser_of(__doc__).parse_args()
    count, faults = 0, []
    for page in sorted(PAGES):
        for _, link in LINK.findall(BLOCK.sub("", page.read_text())):
            if "://" in link or link.startswith("mailto:"):
                continue
            count += 1
            said = fault(page, link)
            if said:
                faults.append(f"{page.relative_to(ROOT)}: ({link}): {said}")
    ours = Ours()
    for name in LINKED:
        for span, places in unlinked(ROOT / name, ours):
            shown = " or ".join(places[:3]) + (" .." if len(places) > 3 else "")
            faults.append(f"{name}: `{span}` has no link where it is first mentioned: {shown}")
    print("\n".join(faults) or f"{count} links lead somewhere")
    sys.exit(1 if faults else 0)


if __name__ == "__main__":
    main()
