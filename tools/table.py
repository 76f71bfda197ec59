"""The tables of docs/SCHEMA.md, read from that page: each object, its members, the mark and the kind
of each, what it means if it is absent, and the values of each choice; and `answer`, which says what
the marks and kinds of SCHEMA.md mean for a value.

Nothing here is taken from the program: what gltf_corpus tries at objects is worked out by it
(gen_objects.py).
"""
import json
import math
import re
from itertools import takewhile
from pathlib import Path

SCHEMA = (Path(__file__).parent.parent / "docs" / "SCHEMA.md").read_text()


def rows_below(head):
    """The cells of each line of the table that begins with this line."""
    lines = SCHEMA[SCHEMA.index(head) :].split("\n")[2:]
    for line in takewhile(lambda line: line.startswith("|"), lines):
        yield line.strip("| ").split(" | ")


def name_of(label):
    """The name of an object, without what stands behind it; of an extension object, its parent's."""
    name = re.match(r"(of )?([\w:]+)", label)
    return name[2].replace("::", ".") + (".extensions" if name[1] else "")


# The values of the choice of each member, by the object's and the member's name, and what each value
# is called.
CHOICES, CALLED = {}, {}
for _, members, spelled in rows_below("| Choice | Members | Spelled |"):
    called = {}
    for value in spelled.split(", "):
        number, name = re.match(r"(\d*) ?`?(\w*)", value).groups()
        called[name or number] = int(number) if number else name
    of, label = members.split(" of ")
    for member in of.split(", "):
        CHOICES[f"{name_of(label)}.{member}"] = [*called.values()]
        CALLED[f"{name_of(label)}.{member}"] = called

KINDS = {"Stride": "U64", "SourceImage": "Index", "ChannelSampler": "Index"}


def kind_of_row(name, member, text):
    """The kind of a row. A kind in brackets is that of the items of a list."""
    if text == "choice":
        return f"{name}.{member}"
    if text.startswith("list of "):
        return f"[{kind_of_row(name, member, text.removeprefix('list of '))}]"
    if text.startswith("index"):
        return "Index"
    if text.startswith("attributes"):
        return "Attributes"
    return KINDS.get(text, text.replace("Numbers ", "Numbers").replace("::", "."))


def default_of(kind, text):
    """The default that a mark has, as a text of JSON."""
    return json.dumps(CALLED[kind][text]) if text and kind in CALLED else text


# What each member that has brackets means if it is absent, by the object's and the member's name.
MEANT = {}


def meaning_of(kind, text):
    """What a member of numbers means if it is absent, by the text in its brackets."""
    words = {"zeros": 0.0, "ones": 1.0, "a quarter of pi": math.pi / 4, "infinite": None}
    found = [words[part] if part in words else float(part) for part in text.split(", ")]
    count = int(kind.removeprefix("Numbers")) if kind.startswith("Numbers") else 0
    return found[0] if count == 0 else found * count if len(found) == 1 else found


def rows_of(name, text, has_ee):
    """The rows of an object: member, mark, default if the mark has one, kind."""
    rows = text.removesuffix(" (no ee)").split("; ")
    if has_ee and not any(row == "ee" or row.startswith("extensions ") for row in rows):
        rows += [] if text.endswith(" (no ee)") else ["ee"]
    for row in rows:
        if row == "ee":
            yield "extensions", "?", None, f"{name}.extensions"
            yield "extras", "?", None, "Any"
        elif row != "none":
            row = re.match(r"(\w+) (\S+) ?(.*?)(?: \[(.*)\])?$", row).groups()
            member, mark, kind, meant = row
            kind = kind_of_row(name, member, kind) or f"{name}.extensions"
            if meant:
                MEANT[f"{name}.{member}"] = meaning_of(kind, meant)
            yield member, mark[0], default_of(kind, mark[1:]), kind


# The rows of each object, and the objects that keep members that they don't know. An extension
# object that isn't listed has no rows. Those of the objects in DROPPERS drop what they don't know.
OBJECTS, KEEPERS = {}, set()
for label, _, rows in rows_below("| Object | glTF 2.0 | Members |"):
    OBJECTS[name_of(label)] = [*rows_of(name_of(label), rows, True)]
for label, rows in rows_below("| Object | Members (no `extensions`"):
    OBJECTS[name_of(label)] = [*rows_of(name_of(label), rows, False)]
    if label.startswith("of ") or label.endswith("keeps unknown members"):
        KEEPERS.add(name_of(label))
DROPPERS = re.search(r"Those of (.*) drop them", SCHEMA)[1]
DROPPERS = {name_of(label) for label in re.split(", | and ", DROPPERS)}
for name in [*OBJECTS]:
    for _, _, default, kind in OBJECTS[name]:
        # The default comes last: the first value is one that is always written.
        if default and kind in CHOICES:
            CHOICES[kind].sort(key=lambda value: value == json.loads(default))
        if kind.endswith(".extensions") and kind not in OBJECTS:
            OBJECTS[kind] = []
            if name not in DROPPERS:
                KEEPERS.add(kind)


REFUSED, INVALID, ABSENT = "refused", "invalid", object()


def is_whole(value, limit):
    return type(value) is int and 0 <= value < limit


def is_number(value):
    return type(value) in (int, float)


def joined(answers, value):
    """The answer of a value that is made of others: `value`, if each of those can be written."""
    for bad in (REFUSED, INVALID):
        if any(answer is bad for answer in answers):
            return bad
    return value


def semantic(name):
    """The name that an attribute is written by; INVALID for one that has no meaning."""
    numbered = re.fullmatch(r"(COLOR|TEXCOORD|JOINTS|WEIGHTS)_\+?([0-9]+)", name)
    if numbered and int(numbered[2]) < 2**32:
        return f"{numbered[1]}_{int(numbered[2])}"
    return name if name in ("POSITION", "NORMAL", "TANGENT") or name.startswith("_") else INVALID


def answer(kind, value):
    """What a value is written as that is read as a kind: REFUSED if it isn't read, INVALID if it
    is read and isn't written, for an item that no choice lists."""
    if kind in OBJECTS:
        return answer_of_object(kind, value)
    if kind in CHOICES:
        if not (is_whole(value, 2**64) if type(CHOICES[kind][0]) is int else type(value) is str):
            return REFUSED
        return value if value in CHOICES[kind] else INVALID
    if kind[0] == "[":
        if type(value) is not list:
            return REFUSED
        items = [answer(kind[1:-1], item) for item in value]
        return joined(items, items)
    if kind == "Attributes":
        if type(value) is not dict:
            return REFUSED
        written = {semantic(name): answer("Index", index) for name, index in sorted(value.items())}
        refused = [answer("Index", index) for index in value.values()]
        return joined([*refused, *written], written)
    is_read = {
        "Any": lambda: True,
        "Index": lambda: is_whole(value, 2**32),
        "U32": lambda: is_whole(value, 2**32),
        "U64": lambda: is_whole(value, 2**64),
        "Number": lambda: is_number(value),
        "Text": lambda: type(value) is str,
        "Truth": lambda: type(value) is bool,
    }
    if kind.startswith("Numbers"):
        count = int(kind[len("Numbers") :])
        well = type(value) is list and len(value) == count and all(map(is_number, value))
    else:
        well = is_read[kind]()
    return value if well else REFUSED


def answer_of_row(mark, default, kind, value):
    """What a row's member is written as: ABSENT if it isn't. `value` is ABSENT if it is missing."""
    if value is None and mark in "?n":
        value = ABSENT
    if value is not ABSENT:
        found = answer(kind, value)
        return ABSENT if mark == "~" and default and found == json.loads(default) else found
    if mark == "=":
        return answer(kind, json.loads(default))
    return {"!": REFUSED, "n": None}.get(mark, ABSENT)


def answer_of_object(name, value):
    """What an object is written as."""
    if type(value) is not dict:
        return REFUSED
    answers = dict(value) if name in KEEPERS else {}
    for member, *row in OBJECTS[name]:
        answers[member] = answer_of_row(*row, value.get(member, ABSENT))
    written = {member: found for member, found in answers.items() if found is not ABSENT}
    return joined(written.values(), written)
