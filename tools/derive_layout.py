"""Texts as `rt fmt` lays them out, and the files that are derived."""
import re
import textwrap
from pathlib import Path

from sources import ROOT

# Rust's widths: of a line, of the arguments of a call and of the fields of a struct in one line.
LINE, ARGUMENTS, FIELDS = 100, 60, 18
# What stands around derived text in a file that is written by hand.
BEGIN, END = "// Written by tools/derive.py: begin", "// Written by tools/derive.py: end"


def indented(lines, depth=1):
    return ["    " * depth + line if line else line for line in lines]


def call(front, arguments, end, depth):
    """A call in one line if it is short enough, else with a line for each argument. `depth` is how
    far it is indented."""
    text = ", ".join(arguments)
    if len(text) <= ARGUMENTS and 4 * depth + len(f"{front}({text}){end}") <= LINE:
        return [f"{front}({text}){end}"]
    return [f"{front}(", *indented([f"{one}," for one in arguments]), f"){end}"]


def struct(front, fields, end=""):
    """A struct or its pattern with its fields."""
    text = ", ".join(fields)
    if len(text) <= FIELDS:
        return [f"{front} {{ {text} }}{end}"]
    return [f"{front} {{", *indented([f"{one}," for one in fields]), f"}}{end}"]


def ghosts(pairs):
    """Ghost members, with an empty line after each."""
    lines = []
    for name, text in pairs:
        made = textwrap.wrap(f"ghost {name} = {{ {text} }};", LINE - 4, subsequent_indent="    ",
                             break_long_words=False)
        # A closing brace never stands alone: rt fmt lets it hang over.
        if made[-1].strip() == "};":
            made[-2:] = [f"{made[-2]} }};"]
        lines += [*made, ""]
    return lines


def block(head, parts):
    """An impl with its parts."""
    while parts and not parts[-1]:
        parts = parts[:-1]
    return [f"{head} {{", *indented(parts), "}"]


class Files:
    """The files that are derived, with their texts before and after, and the marked blocks in files
    that are written by hand."""

    def __init__(self):
        self.before, self.after = {}, {}
        # What is missing, and how many lines of each object are derived.
        self.problems, self.derived = [], {}
        # How many lines the derived body of each function has, by where the function stands.
        self.bodies = {}

    def lines(self, path):
        if path not in self.after:
            self.before[path] = path.read_text() if path.exists() else ""
            self.after[path] = self.before[path].split("\n")
        return self.after[path]

    def whole(self, path, wanted):
        """Writes a file that is nothing but derived."""
        self.lines(path)
        self.after[path] = [*wanted, ""]

    def marked(self, path, head, after, wanted):
        """Writes a block between two marks: in place of the one with this head, or else behind the
        line `after`."""
        lines = self.lines(path)
        at = next((k for k, line in enumerate(lines) if line == f"{head} {{"), None)
        block = [BEGIN, *wanted, END]
        if at is None:
            lines[after + 1:after + 1] = ["", *block]
            return
        end = next(k for k in range(at, len(lines)) if lines[k] == "}")
        if at and lines[at - 1] == BEGIN and lines[end + 1:end + 2] == [END]:
            at, end = at - 1, end + 1
        lines[at:end + 1] = block

    def end_of(self, path, head):
        """The line that ends the item with this head."""
        lines = self.lines(path)
        return lines.index("}", lines.index(head))

    def declare(self, path, line, places):
        """Writes a line that declares a module behind the last line that matches a pattern of
        `places`, the first pattern that has one."""
        lines = self.lines(path)
        if line in lines:
            return
        found = [[k for k, one in enumerate(lines) if re.match(place, one)] for place in places]
        at = next((ks[-1] for ks in found if ks), -1)
        gap = [""] if path.suffix == ".rt" and not re.match(places[0], lines[at]) else []
        lines[at + 1:at + 1] = [*gap, line]

    def count(self, made, wanted):
        number = sum(1 for line in wanted if line.strip())
        self.derived[made.base] = self.derived.get(made.base, 0) + number

    def miss(self, path, line, message):
        self.problems.append(f"{path.relative_to(ROOT)}:{line}: {message}")

    def changed(self):
        """The texts of the files that differ."""
        texts = {path: "\n".join(lines) for path, lines in self.after.items()}
        return {path: text for path, text in texts.items() if text != self.before[path]}


def header(paths, mark):
    """The first lines of a derived file. `paths` are the files that it follows from."""
    names = [str(path.relative_to(ROOT)) if isinstance(path, Path) else path for path in paths]
    listed = " and ".join(filter(None, [", ".join(names[:-1]), names[-1]]))
    text = f"Written by tools/derive.py from {listed}. Do not edit."
    return textwrap.wrap(text, LINE, initial_indent=f"{mark} ", subsequent_indent=f"{mark} ",
                         break_long_words=False, break_on_hyphens=False)
