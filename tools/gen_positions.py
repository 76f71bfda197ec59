#!/usr/bin/env python3
"""gen_positions.py [--check]: writes the lines and columns of findings into crates/gltf_lint/stdout.

It finds the places of JSON pointers in the files of crates/gltf_lint/data by a scanner of its own,
so that the program is not its own witness. With --check it compares them, and ends with status 1 if
one differs.
"""
import json
import pathlib
import re
import struct
import sys

from settle import is_check

CRATE = pathlib.Path(__file__).resolve().parent.parent / "crates" / "gltf_lint"
BLANKS = b" \t\r\n"
TEXT = re.compile(rb'"(?:[^"\\]|\\.)*"', re.DOTALL)
WORD = re.compile(rb"[^\s,:{}\[\]\"]+")
# The length of the longest JSON in which the program looks for places if no option says otherwise.
LONGEST = 1 << 20


def json_of(data):
    """The JSON of a file: that of the first chunk if the file is a container."""
    if not data.startswith(b"glTF"):
        return data
    length, kind = struct.unpack_from("<I4s", data, 12)
    return data[20:20 + length] if kind == b"JSON" else b""


class Scanner:
    """Finds the offset at which each value of a JSON text begins, by its pointer."""

    def __init__(self, text):
        self.text, self.at, self.places = text, 0, {}

    def skip_blanks(self):
        while self.at < len(self.text) and self.text[self.at] in BLANKS:
            self.at += 1

    def next_is(self, byte):
        self.skip_blanks()
        return self.text[self.at:self.at + 1] == byte

    def take(self, byte):
        if not self.next_is(byte):
            raise ValueError(f"{byte} is not at {self.at}")
        self.at += 1

    def text_here(self):
        self.skip_blanks()
        found = TEXT.match(self.text, self.at)
        self.at = found.end()
        return json.loads(found.group())

    def forget_below(self, pointer):
        """A later member takes the place of an earlier one of its name, and all that is in it."""
        for known in [p for p in self.places if p.startswith(pointer + "/")]:
            del self.places[known]

    def value(self, pointer):
        self.skip_blanks()
        self.forget_below(pointer)
        self.places[pointer] = self.at
        first = self.text[self.at:self.at + 1]
        if first == b"{":
            self.members(pointer)
        elif first == b"[":
            self.items(pointer)
        elif first == b'"':
            self.text_here()
        else:
            self.at = WORD.match(self.text, self.at).end()

    def members(self, pointer):
        self.take(b"{")
        while not self.next_is(b"}"):
            name = self.text_here().replace("~", "~0").replace("/", "~1")
            self.take(b":")
            self.value(f"{pointer}/{name}")
            if self.next_is(b","):
                self.take(b",")
        self.take(b"}")

    def items(self, pointer):
        self.take(b"[")
        number = 0
        while not self.next_is(b"]"):
            self.value(f"{pointer}/{number}")
            number += 1
            if self.next_is(b","):
                self.take(b",")
        self.take(b"]")


def places_in(data):
    """The offsets of all values of a JSON text."""
    scanner = Scanner(data)
    scanner.value("")
    return scanner.places


def position(data, places, pointer):
    """The line and the column of a value, or of the last value on the way to it that is there."""
    while pointer not in places:
        pointer = pointer[:pointer.rindex("/")]
    before = data[:places[pointer]]
    return before.count(b"\n") + 1, len(before) - (before.rfind(b"\n") + 1) + 1


def with_position(line, texts):
    found = json.loads(line)
    if found.get("kind") != "finding":
        return line
    number, column = None, None
    if found["pointer"] is not None:
        name = found["file"]
        path = CRATE / "stdin" if name == "-" else CRATE / "data" / name
        if name not in texts:
            text = json_of(path.read_bytes())
            texts[name] = (text, places_in(text) if len(text) <= LONGEST else None)
        text, places = texts[name]
        if places is not None:
            number, column = position(text, places, found["pointer"])
    found["line"], found["column"] = number, column
    return json.dumps(found, sort_keys=True, separators=(",", ":"), ensure_ascii=False)


def main():
    check = is_check(__doc__)
    path = CRATE / "stdout"
    old = path.read_text()
    texts = {}
    new = "".join(with_position(line, texts) + "\n" for line in old.splitlines())
    if not check:
        path.write_text(new)
        return
    if new != old:
        sys.exit("crates/gltf_lint/stdout has other lines or columns than tools/gen_positions.py")
    print("crates/gltf_lint/stdout has the right lines and columns")


if __name__ == "__main__":
    main()
