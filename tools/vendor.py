"""Copies crates into another repository of the kit, with all crates below them.

`python3 tools/vendor.py DEST [CRATE ..]` copies the sources, definitions and proofs of the crates
into DEST/crates, and writes their lines of crates.txt between two marker lines. Without a CRATE it
copies `gltf_json`. A program or a crate of tests is copied only if it is named. Must-fail edits and
out/ stay here. DEST/yorwelis has the LICENSE, the NOTICE and copied.json: the version, the commit,
and a digest of each file.

A second run updates the copy, and adds the crates that it names; with `--only` they take the place of
those that were named before. It changes nothing if DEST has changed a file that an earlier run wrote,
or if a crate of DEST depends on one that would be removed, and prints the names of such files or
crates. A run that was interrupted can be repeated.
"""
import hashlib
import json
import re
import subprocess
import sys
from dataclasses import dataclass, field
from pathlib import Path

from settle import parser_of
from sources import ROOT, crate_lines

DEFAULT = ["gltf_json"]
# What of a crate stays here.
LEFT_OUT = {"out", "must-fail", "__pycache__"}
FOLDER = "yorwelis"
RECORD = f"{FOLDER}/copied.json"
BEGIN = "# Yorwelis: begin of the lines that tools/vendor.py writes"
END = "# Yorwelis: end of these lines"
# How many names of files an error lists.
MOST_NAMES = 20


class Refused(Exception):
    """Why nothing was copied."""


@dataclass
class Copy:
    """What an earlier run recorded, or what this one writes. `files` has a digest for each path."""
    version: str = ""
    commit: str = ""
    crates: list = field(default_factory=list)
    lines: list = field(default_factory=list)
    files: dict = field(default_factory=dict)


def digest(content):
    return hashlib.sha256(content).hexdigest()


def closure(names, lines):
    """The crates and all of this repository below them, in the order of crates.txt."""
    found, open_names = set(), list(names)
    while open_names:
        name = open_names.pop()
        if name not in found:
            found.add(name)
            below = lines[name].partition("#")[0].partition(":")[2].split()
            open_names += [library for library in below if library in lines]
    return [name for name in lines if name in found]


def files_of(crate):
    """The files of a crate that are copied."""
    for path in sorted(crate.rglob("*")):
        if path.is_file() and not LEFT_OUT & set(path.relative_to(crate).parts):
            yield path


def commit():
    """The commit of this repository, with `-dirty` behind it if files differ from that commit."""
    def git(*words):
        ran = subprocess.run(["git", "-C", ROOT, *words], capture_output=True, text=True)
        return ran.stdout.strip() if ran.returncode == 0 else ""
    try:
        if git("rev-parse", "--show-toplevel") == str(ROOT):
            found = git("describe", "--always", "--dirty", "--abbrev=40", "--exclude=*")
            return found or "unknown"
    except FileNotFoundError:
        pass
    return "unknown"


def version():
    return re.search(r"^## (\S+)", (ROOT / "CHANGELOG.md").read_text(), re.M).group(1)


def contents(names):
    """The copy that this repository gives, and the content of each of its files."""
    lines = crate_lines((ROOT / "crates.txt").read_text())
    for name in names:
        if name not in lines:
            raise Refused(f"there is no crate {name} here; crates.txt has {', '.join(lines)}")
    crates = closure(names, lines)
    there = {}
    for name in crates:
        for path in files_of(ROOT / "crates" / name):
            there[path.relative_to(ROOT).as_posix()] = path.read_bytes()
    for name in ("LICENSE", "NOTICE"):
        there[f"{FOLDER}/{name}"] = (ROOT / name).read_bytes()
    files = {path: digest(content) for path, content in there.items()}
    return Copy(version(), commit(), list(names), [lines[name] for name in crates], files), there


def names_of(copy):
    """The names of the crates of a copy."""
    return list(crate_lines("\n".join(copy.lines)))


class Destination:
    """The other repository: its earlier copy, and the lines of its crates.txt."""

    def __init__(self, folder):
        self.root = Path(folder).resolve()
        if not self.root.is_dir():
            raise Refused(f"{folder} is no folder")
        if self.root == ROOT or ROOT in self.root.parents:
            raise Refused(f"{folder} is inside this repository: copy into another one")
        self.list = self.root / "crates.txt"
        if not self.list.is_file():
            raise Refused(f"{folder} has no crates.txt, in which a repository of the kit lists its "
                          f"crates. An empty one will do: touch {self.list}")
        self.earlier = self.recorded()
        self.before, self.block, self.behind = self.parts()

    def recorded(self):
        """The earlier copy, if there is one."""
        record = self.root / RECORD
        if not record.exists():
            return None
        try:
            return Copy(**json.loads(record.read_text()))
        except (ValueError, TypeError):
            raise Refused(f"{record} isn't what this script wrote: take it back from an "
                          "earlier commit") from None

    def parts(self):
        """The lines of crates.txt before the marker lines, between them, and behind them."""
        lines = self.list.read_text().split("\n")
        marks = [at for at, line in enumerate(lines) if line in (BEGIN, END)]
        if not marks:
            while lines and not lines[-1]:
                lines.pop()
            return lines, [], [""]
        if [lines[at] for at in marks] != [BEGIN, END]:
            raise Refused(f"{self.list} hasn't just these two marker lines, in this order:\n"
                          f"{BEGIN}\n{END}")
        begin, end = marks
        return lines[:begin], lines[begin + 1:end], lines[end + 1:]

    def check(self, copy):
        """Refuses what isn't from an earlier run, and what was changed since."""
        own = crate_lines("\n".join([*self.before, *self.behind]))
        if not (self.root / "crates").exists():
            for name in own:
                if (self.root / name).is_dir():
                    raise Refused(f"{self.root} has its crates at the top, as {name}: move them "
                                  "into a folder crates first")
        earlier = self.earlier or Copy()
        for name in names_of(copy):
            foreign = name not in names_of(earlier) and self.is_foreign(f"crates/{name}", copy)
            if foreign or name in own:
                raise Refused(f"{self.root} has a crate {name} that this script didn't write")
        removed = set(names_of(earlier)) - set(names_of(copy))
        for name, line in own.items():
            if needed := removed & set(line.partition("#")[0].partition(":")[2].split()):
                raise Refused(f"{name} depends on {', '.join(sorted(needed))}, which this run would "
                              "remove. Nothing was written.")
        if not self.earlier and self.is_foreign(FOLDER, copy):
            raise Refused(f"{self.root / FOLDER} is there, but this script didn't write it")
        if changed := self.changed(earlier, copy):
            more = len(changed) - MOST_NAMES
            shown = changed[:MOST_NAMES] + ([f".. and {more} more"] if more > 0 else [])
            raise Refused("\n".join([
                f"{self.root} has changes of its own, which an update would lose:",
                *(f"  {name}" for name in shown),
                "Take them back, or move them into crates of other names. Nothing was written."]))

    def changed(self, earlier, copy):
        """What is neither as an earlier run wrote it nor as this one would: files and lines."""
        paths = set(earlier.files)
        for name in names_of(earlier):
            paths.update(self.paths(f"crates/{name}"))
        found = []
        for path in sorted(paths):
            now, was = self.digest_of(path), earlier.files.get(path)
            if now not in (was, copy.files.get(path)):
                found.append(path + (" (missing)" if not now else "" if was else " (new)"))
        if self.block not in (earlier.lines, copy.lines):
            found.append("crates.txt (the lines between the marker lines)")
        return found

    def is_foreign(self, folder, copy):
        """Whether a folder has a file that isn't as this run would write it."""
        return any(self.digest_of(path) != copy.files.get(path) for path in self.paths(folder))

    def paths(self, folder):
        return [file.relative_to(self.root).as_posix() for file in files_of(self.root / folder)]

    def digest_of(self, path):
        """The digest of a file, None if it isn't there."""
        file = self.root / path
        return digest(file.read_bytes()) if file.is_file() else None

    def write(self, copy, there):
        """Writes the copy, and returns how many files were written and removed."""
        written = [path for path in there if self.digest_of(path) != copy.files[path]]
        removed = [path for path in (self.earlier or copy).files if path not in there]
        for path in removed:
            self.remove(self.root / path)
        for path in written:
            file = self.root / path
            file.parent.mkdir(parents=True, exist_ok=True)
            file.write_bytes(there[path])
        lines = [*self.before, BEGIN, *copy.lines, END, *self.behind]
        self.list.write_text("\n".join(lines))
        (self.root / RECORD).write_text(json.dumps(vars(copy), indent=1) + "\n")
        return len(written), len(removed)

    def remove(self, file):
        """Removes a file, and the folders that it leaves empty."""
        file.unlink(missing_ok=True)
        folder = file.parent
        while folder.is_dir() and folder != self.root / "crates" and not any(folder.iterdir()):
            folder.rmdir()
            folder = folder.parent


def given():
    arguments = parser_of(__doc__)
    arguments.add_argument("dest", metavar="DEST", help="the top of the other repository")
    arguments.add_argument("crates", metavar="CRATE", nargs="*", default=[],
                           help="what to copy, with all below it (gltf_json)")
    arguments.add_argument("--only", action="store_true",
                           help="remove what no CRATE of this run needs")
    words = arguments.parse_intermixed_args()
    if words.only and not words.crates:
        arguments.error("--only needs a CRATE")
    return words


def main():
    words = given()
    dest = Destination(words.dest)
    kept = dest.earlier.crates if dest.earlier and not words.only else []
    asked = [*kept, *words.crates] or DEFAULT
    copy, there = contents(list(dict.fromkeys(asked)))
    dest.check(copy)
    written, removed = dest.write(copy, there)
    print(f"{len(copy.lines)} crates of version {copy.version}, commit {copy.commit}: "
          f"{written} files written, {removed} removed")
    if copy.commit.endswith("-dirty"):
        print("This repository has changes that its commit hasn't.")


if __name__ == "__main__":
    try:
        main()
    except (Refused, OSError) as refused:
        sys.exit(f"vendor.py: {refused}")
