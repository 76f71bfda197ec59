"""Writes files that are made by a script, or with `--check` compares them with what is there. The
content of a file is a text, or bytes."""
import argparse
import difflib
import sys

from sources import ROOT

# How much of a difference is printed.
LINES, WIDTH = 12, 100


def bytes_of(content):
    return content if isinstance(content, bytes) else content.encode()


def parser_of(words):
    """What reads the arguments of a script, whose docstring is `words`."""
    return argparse.ArgumentParser(description=words,
                                   formatter_class=argparse.RawDescriptionHelpFormatter)


def is_check(words):
    """Reads the arguments of a script that writes, or with `--check` compares."""
    parser = parser_of(words)
    parser.add_argument("--check", action="store_true",
                        help="write nothing, and end with status 1 if something would be written")
    return parser.parse_args().check


def settle(files, check):
    """Writes each content to its path. To check, it writes nothing, and ends with status 1 and a
    short diff if a file has another content."""
    if not check:
        for path, content in files.items():
            path.write_bytes(bytes_of(content))
        return
    stale = [path for path, content in files.items()
             if not path.exists() or path.read_bytes() != bytes_of(content)]
    if files and not stale:
        first = next(iter(files)).relative_to(ROOT)
        print(f"{first} is current" if len(files) == 1 else f"{len(files)} files are current")
    for path in stale:
        print(f"{path.relative_to(ROOT)} is not current: run python3 {sys.argv[0]}")
        if isinstance(files[path], bytes):
            continue
        there = path.read_text().split("\n") if path.exists() else []
        diff = [*difflib.unified_diff(there, files[path].split("\n"), "there", "made", "", n=0)]
        for line in diff[:LINES]:
            print(line.rstrip()[:WIDTH])
        if len(diff) > LINES:
            print(f".. and {len(diff) - LINES} lines more")
    if stale:
        sys.exit(1)
