"""Two lemmas for each object, in two files for each crate of objects. What is invalid in it is
reported, which the law that clean documents are written depends on. Its kind is one whose reports
are at places of the JSON, which the law that reports lead to places depends on."""
from derive_crate import inner_objects, kind_parts, rewritten
from derive_layout import header
from derive_names import RULES, antt_uses
from derive_sources import CRATES

PROOFS = CRATES / RULES / "proofs"
# A search that needs more room than most.
ROOM = {"root": " fits 8000"}
REPORTED = {"AreReported": f"Rattle.{RULES}.proofs.InvalidReported",
            "invalid_reported": f"Rattle.{RULES}.proofs.InvalidReported"}
# `fits` is also a word of a search, in the other lemmas.
POINTING = {"fits": f"Rattle.{RULES}.proofs.Pointing", "◌≡◌": "Rattle.std.proofs.Common",
            "true": "Rattle.std.proofs.Common", "refl": "Rattle.std.proofs.Common"}


def file_name(word, made):
    """The file of a crate's objects: `ReportedParts` of gltf_parts."""
    return f"{word}{made.crate.partition('_')[2].capitalize()}"


def type_name(made):
    """The name that the files give an object's type, which is that of its rows: other objects may
    have the name of the struct."""
    return "".join(word.capitalize() for word in made.base.split("_"))


def type_use(made):
    name = type_name(made)
    declared = ".".join((made.crate, "specs.declared", *made.module, made.name))
    alias = made.name if name == made.name else f"{made.name} as {name}"
    return f"use Rattle.{declared}.{{{alias}}}"


def lemma(table, made):
    """The lemma of an object: it follows from those of the objects in it."""
    rows, members = f"{made.base}_rows", f"{made.base}_members"
    inner = [f"{one.base}_reported" for one in inner_objects(table, made) if one.rows]
    known = f"({', '.join(['invalid_reported', *inner])})" if inner else "invalid_reported"
    return [f"pub {made.base}_reported : (v : {type_name(made)}) → AreReported {rows} ({members} v)",
            f"unfolding {rows} {members}",
            f"{made.base}_reported v = search {known} depth 40{ROOM.get(made.base, '')}"]


def reported_text(table, group):
    """The lemmas of a group of objects, each with its lines, and the types that they name."""
    return [(made, lemma(table, made)) for made in group], [type_use(made) for made in group]


def pointing_text(table, group):
    """As `reported_text`, of the kinds of the objects."""
    return [(made, pointing(table, made)) for made in group], []


def pointing(table, made):
    """The lemma of an object's kind: it follows from those of the kinds of the objects in it."""
    unfolded, lemmas = kind_parts(table, made)
    names = [*dict.fromkeys(f"{one.base}_fits" for one in lemmas if one.rows)]
    return [f"pub {made.base}_fits : fits {made.kind} ≡ true",
            f"unfolding {' '.join(unfolded)}",
            f"{made.base}_fits = {rewritten(names, 'refl')}"]


def inner_first(table):
    """The objects with rows, each behind those in it."""
    found = []

    def visit(made):
        for inner in inner_objects(table, made):
            if inner.rows:
                visit(inner)
        if made not in found:
            found.append(made)

    for made in table.objects.values():
        if made.rows:
            visit(made)
    return found


def write_reported(table, files):
    """Writes the files, and declares them."""
    write_lemmas(table, files, "Reported", "reported", reported_text, REPORTED)
    write_lemmas(table, files, "Pointing", "fits", pointing_text, POINTING)


def write_lemmas(table, files, word, end, text_of, known):
    """Writes a file for each crate of objects with the lemmas whose names end so."""
    groups = {}
    for made in inner_first(table):
        groups.setdefault(file_name(word, made), []).append(made)
    where = dict(known)
    for name, group in groups.items():
        for made in group:
            where[f"{made.base}_{end}"] = f"Rattle.{RULES}.proofs.{name}"
            for one in ("rows", "members"):
                where[f"{made.base}_{one}"] = f"Rattle.{made.definitions()}"
            where[made.kind] = f"Rattle.{made.definitions()}"
    for name, group in groups.items():
        own = {f"{made.base}_{end}" for made in group}
        blocks, types = text_of(table, group)
        text = "\n".join(line for _, lines in blocks for line in lines)
        uses = antt_uses(text, {one: module for one, module in where.items() if one not in own})
        sources = dict.fromkeys(made.spec_path() for made in group)
        lines = [*header(list(sources), "--"), *sorted([*uses, *types])]
        for made, block in blocks:
            lines += ["", *block]
            files.count(made, block)
        files.whole(PROOFS / f"{name}.antt", lines)
        files.declare(PROOFS / "Lib.antt", f"pub mod {name}", [f"pub mod {word}", "pub mod "])
