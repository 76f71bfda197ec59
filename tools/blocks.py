"""Reads blocks of lines that are written by hand, in .rt and .antt files. A line of a block that no
pattern matches is a fault with its place: a script must not pass over what it can't read."""
import re

from sources import ROOT


class Wrong(Exception):
    """What is wrong with a text that is written by hand, and where."""

    def __init__(self, path, line, message):
        super().__init__(f"{path.relative_to(ROOT)}:{line}: {message}")


def matched(path, lines, first, pattern, passed):
    """The matches of a pattern in some lines, each with its number. Lines that `passed` matches
    don't count."""
    found = []
    for number, line in enumerate(lines, first):
        if match := re.fullmatch(pattern, line):
            found.append((number, match.groups()))
        elif not re.fullmatch(passed, line):
            raise Wrong(path, number, f"the script can't read this line: {line.strip()}")
    return found


def cases_of(path, name, pattern):
    """The cases of a definition in specs/, up to the next empty line. `pattern` is that of a case
    behind the definition's name."""
    lines = path.read_text().split("\n")
    head = re.compile(rf"(\s*)(?:abbrev )?(?:pub )?{name} : ")
    at = next((k for k, line in enumerate(lines) if head.match(line)), None)
    if at is None:
        raise Wrong(path, 1, f"there is no definition of {name}")
    front = head.match(lines[at])[1]
    end = next((k for k in range(at + 1, len(lines)) if not lines[k].strip()), len(lines))
    return matched(path, lines[at + 1:end], at + 2, rf"{front}{name} {pattern}", r"\s*--.*")


def variants_of(path, name):
    """The variants without fields of an enum, each with its number. Comments stand on lines of
    their own."""
    lines = path.read_text().split("\n")
    if (head := f"pub enum {name} {{") not in lines:
        raise Wrong(path, 1, f"there is no line: {head}")
    at = lines.index(head)
    found = matched(path, lines[at + 1:lines.index("}", at)], at + 2, r"    (\w+),", r"    //.*")
    return {groups[0]: number for number, groups in found}


def number_of(path, name):
    """The number that a constant of a source is."""
    found = re.search(rf"(?m)^(?:pub(?:\(crate\))? )?const {name}: \w+ = (\d+);$", path.read_text())
    if not found:
        raise Wrong(path, 1, f"there is no constant {name} that is a number")
    return int(found[1])
