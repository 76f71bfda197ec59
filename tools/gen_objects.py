#!/usr/bin/env python3
"""gen_objects.py: what gltf_corpus tries at each object of the format, and what it expects.

It writes crates/gltf_corpus_run/data/objects.json, or compares it (`--check`). What is expected is
worked out by table.py, never taken from the program.

objects.json has the values that stand in for each member in turn; the names of the fields that a
Debug text has; what absent numbers mean; for each object its place, a document in which each of its
members has a value that isn't its default, and for each member a line that says what becomes of the
values; and the objects of object_forms.py, each as the member of a document that holds it, with
such a line.
"""
import collections
import json
import re
import sys

from corpus import DATA
from object_forms import FORMS
from settle import is_check, settle
from table import ABSENT, CHOICES, INVALID, KEEPERS, MEANT, OBJECTS, REFUSED
from table import answer, answer_of_object

# The name of a member that no object has.
UNKNOWN = "zz"

SAMPLES = {
    **{"Any": [1, 0.5, -1], "Index": 0, "U32": 1, "U64": 4, "Number": 0.5, "Text": "a"},
    **{"Truth": True, "Attributes": {"POSITION": 0}},
}


def arrays():
    """Arrays of up to five numbers and about 16, and some that aren't of numbers alone."""
    for count in [1, 2, 3, 4, 5, 15, 16, 17]:
        yield [1, 0, 1.5, -1][:count] + [1] * (count - 4)
        yield [1] * (count - 1) + ["x"]
    yield from ([], [None], [True], ["x", "y"], [1, 0], [{}])


VALUES = [
    *(None, False, True, -1, 1.5, 0, 1, 4, 10497, 4294967295, 4294967296, 18446744073709551615),
    *("", "x", "LINEAR", "OPAQUE", {}, {"zz": 1}, *arrays()),
]


def compact(value):
    return json.dumps(value, separators=(",", ":"), sort_keys=True)


def sample(kind):
    """A value of a kind in which nothing is missing, and nothing is a default."""
    if kind in OBJECTS:
        return {member: sample(of) for member, _, _, of in OBJECTS[kind]}
    if kind in CHOICES:
        return CHOICES[kind][0]
    if kind[0] == "[":
        return [sample(kind[1:-1])]
    if kind.startswith("Numbers"):
        return [0.5] * int(kind.removeprefix("Numbers"))
    if kind not in SAMPLES:
        sys.exit(f"docs/SCHEMA.md: a row has the kind {kind}, of which there is no table, choice "
                 "or sample")
    return SAMPLES[kind]


def least(kind):
    """A value of a kind in which what may be missing is."""
    if kind in OBJECTS:
        return {member: least(of) for member, mark, _, of in OBJECTS[kind] if mark == "!"}
    return [] if kind[0] == "[" else sample(kind)


def kind_of(name, member):
    """The kind of an object's member."""
    return {row[0]: row[3] for row in OBJECTS[name]}[member]


def around(kind, steps, inner):
    """The least value of a kind that has a value at the place that steps lead to."""
    if not steps:
        return inner
    if kind[0] == "[":
        return [around(kind[1:-1], steps[1:], inner)]
    return {**least(kind), steps[0]: around(kind_of(kind, steps[0]), steps[1:], inner)}


def places_of(kind, steps=()):
    """The objects in the sample of a kind, each with the steps to it."""
    if kind[0] == "[":
        yield from places_of(kind[1:-1], (*steps, 0))
    elif kind in OBJECTS:
        yield kind, steps
        for member, _, _, of in OBJECTS[kind]:
            yield from places_of(of, (*steps, member))


# The steps to the first object of each type.
PLACES = {}
for found, steps in places_of("Root"):
    PLACES.setdefault(found, steps)
if set(PLACES) != set(OBJECTS):
    sys.exit("docs/SCHEMA.md: no row of another object leads to "
             + ", ".join(sorted(set(OBJECTS) - set(PLACES))))


def holding(name, value):
    """A document that is written as it is, with a value in the place of an object of a type."""
    steps = PLACES[name]
    document = answer("Root", around("Root", steps, sample(name)))
    if not steps:
        return value
    holder = document
    for step in steps[:-1]:
        holder = holder[step]
    holder[steps[-1]] = value
    return document


def told(found, value):
    """What became of a value that is a member of an object."""
    if found in (REFUSED, INVALID):
        return found
    if found is ABSENT:
        return "left out"
    is_kept = value is not ABSENT and compact(found) == compact(value)
    return "kept" if is_kept else f"written as {compact(found)}"


def found_of(name, member, value):
    """What a member of an object is written as, if a value stands in for it in the sample."""
    members = {UNKNOWN: 0, **sample(name), member: value}
    if value is ABSENT:
        del members[member]
    found = answer_of_object(name, members)
    return found if found in (REFUSED, INVALID) else found.get(member, ABSENT)


def line_of(outcomes):
    """A line: each outcome but a refusal, and behind it its values, in their order."""
    line, last = "", REFUSED
    for outcome, value in outcomes:
        if outcome != REFUSED:
            line += "" if outcome == last else f"; {outcome}:"
            line += " nothing" if value is ABSENT else f" {compact(value)}"
            last = outcome
    return line


def field(member):
    """The name of the field that holds a member."""
    special = {
        **{"type": "type_", "POSITION": "positions", "NORMAL": "normals", "TANGENT": "tangents"},
        "KHR_texture_transform": "texture_transform",
        "KHR_lights_punctual": "khr_lights_punctual",
        "KHR_materials_variants": "khr_materials_variants",
    }
    short = member.removeprefix("KHR_materials_")
    return special.get(member) or re.sub("([A-Z])", r"_\1", short).lower()


def fields_of(kind):
    """The names of the fields in the Debug text of a kind's sample: what stands before a colon."""
    if kind in OBJECTS:
        for member, _, _, of in OBJECTS[kind]:
            yield field(member)
            yield from fields_of(of)
        if kind in KEEPERS:
            yield "others"
    elif kind[0] == "[":
        yield from fields_of(kind[1:-1])
    elif kind.startswith("Number"):
        yield from ["value"] * int(kind.removeprefix("Number").removeprefix("s") or 1)
    elif kind == "Attributes":
        yield "{Valid(Positions)"


def place_of(steps):
    """The place that steps lead to, as a JSON pointer."""
    return "".join(f"/{step}" for step in steps)


def line_of_member(name, member):
    """What becomes of each value, and of none, as a member of an object."""
    found = [(found_of(name, member, value), value) for value in [ABSENT, *VALUES]]
    return line_of((told(written, value), value) for written, value in found)


def forms():
    """The objects worked by hand, each as a member of a document, with what becomes of it."""
    for line in FORMS.strip().split("\n"):
        name, form = line.split(" ", 1)
        given, _, hand = form.partition(" -> ")
        value = json.loads(given)
        found = answer(name, value)
        assert found == (INVALID if hand == "invalid" else json.loads(hand or given)), line
        member = PLACES[name][0]
        written = found if found is INVALID else holding(name, found)[member]
        held = holding(name, value)[member]
        missing = told(found_of("Root", member, ABSENT), ABSENT)
        outcomes = [(missing, ABSENT), (told(written, held), held)]
        yield {"name": member, "values": [held], "line": line_of(outcomes)}


def objects():
    """Each object: its place, a document that has all its members, and what becomes of them."""
    for name, steps in PLACES.items():
        members = {member: line_of_member(name, member) for member in [*sample(name), UNKNOWN]}
        document = holding(name, sample(name))
        yield f'{{"at":"{place_of(steps)}","in":{compact(document)},"members":{{'
        lines = (f"{compact(member)}:{compact(line)}" for member, line in sorted(members.items()))
        yield ",\n".join(lines)
        yield "}}" if name == [*PLACES][-1] else "}},"


def data():
    """What the program reads."""
    yield f'{{"values":{compact(VALUES)},'
    yield f'"fields":{compact(collections.Counter(fields_of("Root")))},'
    yield f'"absent":{compact(MEANT)},'
    yield '"objects":['
    yield from objects()
    yield f'],"least":{compact(least("Root"))},'
    yield '"forms":['
    yield ",\n".join(map(compact, forms()))
    yield "]}"


if __name__ == "__main__":
    check = is_check(__doc__)
    settle({DATA / "objects.json": "".join(f"{line}\n" for line in data())}, check)
