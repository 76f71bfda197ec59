"""What follows from the codes of findings and from the names of members.

By hand are the enums `Code` and `Name` in gltf_findings_codes with their docs, the table of the codes
in `specs/Codes.antt` with a line for each, and the spelling of the names in `specs/Names.antt`. From
these follow the functions over both enums, the list of all codes, the lemma that each code is in it,
and the first four cells of the rows in docs/FINDINGS.md. The cells behind them are by hand there."""
import re
from dataclasses import dataclass

from blocks import Wrong, cases_of, variants_of
from derive_layout import LINE, block, header, indented
from derive_sources import CRATES
from sources import ROOT

CODES = CRATES / "gltf_findings_codes"
CODE, NAME = CODES / "src" / "code.rt", CODES / "src" / "name.rt"
TABLE, SPELLING = CODES / "specs" / "Codes.antt", CODES / "specs" / "Names.antt"
LINES = CRATES / "gltf_findings_lines"
PAGE = ROOT / "docs" / "FINDINGS.md"
SPEC = "Rattle.gltf_findings_codes.specs"
TEXT = r'"((?:[^"\\]|\\.)*)"'
ENTRY = rf"code\.(\w+) = entry {TEXT} (\w+) {TEXT} {TEXT}"
SPELLED = rf"name\.«?(\w+)»? = codes {TEXT}"
# The tables of the page that have severities, and their rows.
TITLES = "| Code | Severity | Section | Says |"
ROW = re.compile(r"\| `([A-Z0-9_]+)` \|")


@dataclass
class Entry:
    """The line of a code."""
    code: str
    name: str
    severity: str
    section: str
    message: str

    def cells(self):
        """The cells that FINDINGS.md has of it."""
        return f"| `{self.name}` | {self.severity.lower()} | {self.section} | {self.message} |"


def table_of(path, name, pattern, source, enum):
    """The lines of a table in specs/ with their numbers, in the order of the enum. Each variant has
    exactly one."""
    known, found = variants_of(source, enum), {}
    for number, groups in cases_of(path, name, pattern):
        if groups[0] not in known:
            raise Wrong(path, number, f"{enum} has no variant {groups[0]}")
        if groups[0] in found:
            raise Wrong(path, number, f"{groups[0]} has a line already")
        found[groups[0]] = number, groups
    for one, number in known.items():
        if one not in found:
            raise Wrong(source, number, f"{one} has no line in {path.relative_to(ROOT)}")
    return [found[one] for one in known]


def function(docs, name, result, clause, arms):
    """A function that is a table."""
    return [*(f"/// {line}" for line in docs), f"pub fn {name}(&self) -> {result}",
            f"    ensures {{ {clause} }}", "{", "    match self {", *indented(arms, 2), "    }", "}"]


def arm(pattern, value):
    line = f"{pattern} => {value},"
    return [line] if len(line) + 12 <= LINE else [f"{pattern} =>", f"    {value},"]


def write_functions(files, entries):
    """Writes `src/code/derived.rt`."""
    def texts(name, docs, value):
        arms = [line for one in entries for line in arm(f"Code::{one.code}", value(one))]
        result, now = ("Severity", "") if name == "severity" else ("&'static str", ".now")
        return function(docs, name, result, f"result{now} ≡ code_{name} self.now", arms)
    parts = [
        *texts("name", ["Returns the name of the code, as the Khronos glTF-Validator spells it."],
               lambda one: f'"{one.name}"'), "",
        *texts("severity", ["Returns how severe the finding is."],
               lambda one: f"Severity::{one.severity}"), "",
        *texts("section", [
            "Returns the section of the glTF 2.0 specification that has the rule, or the name of an",
            "extension. `5` stands for the section of the object."],
            lambda one: f'"{one.section}"'), "",
        *texts("message", ["Returns what is wrong, as a clause in English."],
               lambda one: f'"{one.message}"')]
    files.whole(CODES / "src" / "code" / "derived.rt", [
        *header([CODE, TABLE], "//!"), "",
        "ghost use Rattle.std.specs.Prelude.{◌≡◌};",
        f"ghost use {SPEC}.Codes.{{code_message, code_name, code_section, code_severity}};", "",
        "use super::{Code, Severity};", "", *block("impl Code", parts)])


def write_names(files):
    """Writes `src/name/derived.rt`."""
    rows = table_of(SPELLING, "name_text", SPELLED, NAME, "Name")
    arms = [line for _, (name, text) in rows for line in arm(f"Name::{name}", f'"{text}"')]
    files.whole(CODES / "src" / "name" / "derived.rt", [
        *header([NAME, SPELLING], "//!"), "",
        "ghost use Rattle.std.specs.Prelude.{◌≡◌};",
        f"ghost use {SPEC}.Names.{{name_text}};", "", "use super::Name;", "",
        *block("impl Name", function(["Returns the name as JSON spells it."], "text",
                                     "&'static str", "result.now ≡ name_text self.now", arms))])


def write_list(files, entries):
    """Writes the constant in `src/codes/all.rt` and the lemma in `proofs/EachCode.antt`."""
    names, code = [one.code for one in entries], f"{SPEC}.declared.code.Code"
    files.whole(LINES / "src" / "codes" / "all.rt", [
        *header([CODE], "//!"), "", "use gltf_findings_codes::Code;", "",
        "/// All codes, in the order of their enum.", "pub const ALL: &[Code] = &[",
        *(f"    Code::{name}," for name in names), "];"])
    files.whole(LINES / "proofs" / "EachCode.antt", [
        *header([CODE], "--"),
        "use Rattle.std.proofs.Common.{refl}",
        f"use {code}.{{Code}}",
        f"use {code}.TheVariants as code",
        "use Rattle.gltf_findings_lines.proofs.Listed.{IsListed}",
        "use Rattle.gltf_findings_lines.specs.declared.codes.all.TheConstants.{ALL}", "",
        "pub listed_code : (c : Code) → IsListed ALL.now c",
        *(f"listed_code code.{name} = ({number}, refl)" for number, name in enumerate(names))])


def write_page(files, entries):
    """Writes the first cells of the rows in the tables of FINDINGS.md that have severities. A code
    without a row gets one behind that of the code before it."""
    lines, known, rows = files.lines(PAGE), {one.name: one for one in entries}, {}
    is_table = False
    for at, line in enumerate(lines):
        is_table = line.startswith(TITLES) or is_table and line.startswith("|")
        found = ROW.match(line) if is_table else None
        if found and found[1] not in known:
            files.miss(PAGE, at + 1, f"there is no code {found[1]}")
        elif found:
            rows.setdefault(found[1], at)
            rest = line.split("|")[5:]
            lines[at] = "|".join([known[found[1]].cells()[:-1], *rest])
    for before, one in zip([None, *entries], entries):
        if one.name not in rows and before:
            at = next(k for k, line in enumerate(lines) if line.startswith(before.cells()))
            lines.insert(at + 1, f"{one.cells()}  |")


def code_entries():
    """The line of each code, in the order of the enum."""
    severities, made = variants_of(CODE, "Severity"), []
    for number, groups in table_of(TABLE, "code_entry", ENTRY, CODE, "Code"):
        made.append(Entry(*groups))
        if made[-1].severity not in severities:
            raise Wrong(TABLE, number, f"Severity has no variant {made[-1].severity}")
    return made


def write_codes(files):
    entries = code_entries()
    write_functions(files, entries)
    write_names(files)
    write_list(files, entries)
    write_page(files, entries)
