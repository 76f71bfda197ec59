"""Compares README.md, docs/GUIDE.md and docs/LINT.md with the files that they show.

`python3 tools/run_readme.py` checks in a moment, without the toolchain: each Rust program is an
example of `gltf_examples`, each output is part of what `rt ci` compares as the output of
`gltf_examples_run`, README has at most 700 words, the examples of a row of the guide's table have
each call of the row, and each finding has the severity and the message of its code (in
docs/C.md too). The guide's command that takes the library along copies it into a new folder,
leaves an equal copy as it is, and refuses a copy that was changed.
`--run` also runs the pages' commands in a clean copy of this repository: the first one by `rt try`,
those for the linter, those that copy the library, and the guide's programs in the repository that has
the copy. That takes some minutes. The linter comes from crates/gltf_lint/out if it was built there,
else it is built first (docs/GATE.md says how long that takes).
"""
import os
import re
import shutil
import subprocess
import sys
import tempfile
from pathlib import Path

from derive_codes import code_entries
from settle import parser_of

ROOT = Path(__file__).resolve().parent.parent
PAGES = {name: ROOT / path for name, path in
         {"README": "README.md", "GUIDE": "docs/GUIDE.md", "LINT": "docs/LINT.md"}.items()}
EXAMPLES = ROOT / "crates" / "gltf_examples"
# The program that runs them: its documents, and what it must print.
RUN = ROOT / "crates" / "gltf_examples_run"
LINTER = Path("crates", "gltf_lint", "out", "gltf_lint")
# A line of the linter: the severity, the message and the code.
FINDING = re.compile(r"(?m)^\S+:\d+:\d+: (\w+): \S+: (.*) \[([A-Z0-9_]+)\]$")
MOST_WORDS = 700
BLOCK = re.compile(r"^```(\w+)\n(.*?)^```$", re.S | re.M)


def program_of(example):
    """An example as a page shows it: without its first comment, and with `fn main`."""
    lines = [line for line in example.read_text().split("\n") if not line.startswith("//!")]
    return "\n".join(lines).replace("pub fn main", "fn main")


def rows_of(text):
    """The rows of the guide's table: the calls of each, which are no pages, and its examples."""
    for calls, examples in re.findall(r"(?m)^\| [^|]+ \| ([^|]*`[^|]*) \| ([^|]*) \|$", text):
        names = [name for name in re.findall(r"`([^`]+)`", calls) if "/" not in name]
        files = [EXAMPLES / "src" / f"{name}.rt" for name in re.findall(r"`([^`]+)`", examples)]
        if all(file.exists() for file in files):
            yield names, files


class Page:
    """A page with its blocks by their language."""

    def __init__(self, path):
        self.name, self.text, self.blocks = path.name, path.read_text(), {}
        for language, body in BLOCK.findall(self.text):
            self.blocks.setdefault(language, []).append(body)

    def commands_with(self, word):
        """The block of commands that has a word."""
        return next(body for body in self.blocks["sh"] if word in body)


class Pages:
    def __init__(self):
        self.faults, self.programs = [], {}
        for name, path in PAGES.items():
            setattr(self, name.lower(), Page(path))
        # What each example prints.
        parts = re.split(r"^# (\w+)\n", (RUN / "stdout").read_text(), flags=re.M)
        self.outputs = dict(zip(parts[1::2], parts[2::2]))

    def expect(self, holds, fault):
        if not holds:
            self.faults.append(fault)

    def check(self):
        examples = {program_of(file): file.stem for file in (EXAMPLES / "src").glob("*.rt")}
        for body in self.guide.blocks["rust"]:
            name = examples.get(body)
            self.expect(name, f"GUIDE.md: no example is this program:\n{body}")
            if name:
                self.programs[name] = body
        printed = [body for body in self.guide.blocks["text"]] + self.readme.blocks["text"][:1]
        for body in printed:
            found = any(body in output for output in self.outputs.values())
            self.expect(found, f"no example prints this:\n{body}")
        for file in (RUN / "data").glob("*.gltf"):
            shown = ROOT / "examples" / file.name
            same = not shown.exists() or shown.read_text() == file.read_text()
            self.expect(same, f"{file} differs from {shown}")
        words = len(self.readme.text.split())
        self.expect(words <= MOST_WORDS, f"README.md has {words} words")
        linted = self.readme.blocks["text"][1]
        for line in self.lint.blocks["text"][0].splitlines(keepends=True):
            self.expect(line in linted or line.startswith("files:"),
                        f"LINT.md: README.md doesn't print this: {line}")
        self.check_findings()
        self.check_table()
        self.check_copies()

    def check_findings(self):
        """Compares the findings that pages print with the table of their codes."""
        said = {one.name: [one.severity.lower(), one.message] for one in code_entries()}
        for page in (self.readme, self.lint, Page(ROOT / "docs" / "C.md")):
            for severity, message, code in re.findall(FINDING, "".join(page.blocks["text"])):
                self.expect([severity, message] == said.get(code),
                            f"{page.name}: {code} isn't {severity}: {message}")

    def check_table(self):
        """Looks for the calls of each row in its examples."""
        for calls, examples in rows_of(self.guide.text):
            shown = "".join(file.read_text() for file in examples)
            for call in calls:
                name = call.split("::")[-1]
                self.expect(re.search(rf"\b{name}\b", shown), f"GUIDE.md: no example has {call}")

    def check_copies(self):
        """Copies the library, copies it again, and then over a change."""
        with tempfile.TemporaryDirectory() as folder:
            mine = Path(folder)
            (mine / "crates.txt").touch()
            self.expect_copied(mine)
            self.expect_copied(mine, "0 files written, 0 removed")
            changed = "crates/gltf_json/src/lib.rt"
            with (mine / changed).open("a") as file:
                file.write("// mine\n")
            refused = self.copied(mine)
            named = refused.returncode == 1 and changed in refused.stderr
            self.expect(named, f"a changed copy isn't refused: {refused}")

    def copied(self, mine):
        """Runs the command that copies the library, with this folder in place of its own."""
        command = re.search(r"^python3 (tools/vendor\.py) \S+(.*)$", self.guide.text, re.M)
        script, crates = command.groups()
        words = [sys.executable, ROOT / script, mine, *crates.split()]
        return subprocess.run(words, capture_output=True, text=True)

    def expect_copied(self, mine, output=""):
        ran = self.copied(mine)
        done = ran.returncode == 0 and output in ran.stdout
        self.expect(done, f"the library wasn't copied: {ran}")

    def run(self):
        """Runs the commands and programs in a clean copy of this repository."""
        with tempfile.TemporaryDirectory() as place:
            top = Path(place) / "yorwelis"
            left_out = shutil.ignore_patterns(".git", "out", "__pycache__")
            shutil.copytree(ROOT, top, ignore=left_out)
            self.run_first_command(top)
            self.try_linter(top)
            self.run_linter(top)
            self.run_programs(top)

    def run_first_command(self, top):
        command = self.readme.commands_with("rt try")
        ran = shell(command, top)
        printed = ran.stdout == self.readme.blocks["text"][0]
        self.expect(printed, f"{command} printed:\n{ran.stdout}{ran.stderr}")

    def try_linter(self, top):
        """Runs the linter by LINT.md's first command, which names its file by a whole path."""
        ran = shell(self.lint.commands_with("rt try"), top)
        file = f"{top}/crates/gltf_lint/../../examples/first.gltf"
        due = self.lint.blocks["text"][0].replace("examples/first.gltf", file)
        self.expect(ran.stdout == due, f"LINT.md's first command: {ran.stdout}{ran.stderr}")

    def run_linter(self, top):
        """Builds the linter by LINT.md's commands, with a home folder of their own, and runs it as
        README.md does."""
        commands = self.lint.commands_with("install")
        if (ROOT / LINTER).exists():
            commands = "".join(re.findall(r"(?m)^(?!.*\brt run\b).*\n", commands))
            (top / LINTER).parent.mkdir(parents=True, exist_ok=True)
            shutil.copy(ROOT / LINTER, top / LINTER)
        home = str(top.parent / "home")
        ran = shell(f"{commands}gltf_lint examples\n", top, HOME=home)
        right = (ran.returncode, ran.stdout) == (1, self.readme.blocks["text"][1])
        self.expect(right, f"the linter: status {ran.returncode}, {ran.stdout}{ran.stderr}")

    def run_programs(self, top):
        """Copies the library by the guide's commands, and runs its programs over the copy."""
        ran = shell(self.guide.commands_with("vendor.py"), top)
        self.expect(ran.returncode == 0, f"the library wasn't copied: {ran.stdout}{ran.stderr}")
        mine = top.parent / "mine"
        lines = dict(re.findall(r"`(my_\w+): ([\w ]+)`", self.guide.text))
        with (mine / "crates.txt").open("a") as file:
            file.write("".join(f"{name}: {uses}\n" for name, uses in lines.items()))
        for name, body in self.programs.items():
            self.expect(f"my_{name}" in lines, f"GUIDE.md has no line for my_{name}")
            source = mine / "crates" / f"my_{name}" / "src"
            source.mkdir(parents=True)
            (source / "main.rt").write_text(body)
        for name, body in self.programs.items():
            self.run_program(mine / "crates" / f"my_{name}", name, body)

    def run_program(self, crate, name, body):
        # The command that gives a program the file that it reads, else the plain one.
        commands = re.findall(r"`(rt try --data (\S+?)=\S+)`", self.guide.text)
        given = (command for command, file in commands if f'"{file}"' in body)
        ran = shell(next(given, "rt try"), crate)
        right = ran.stdout == self.outputs[name]
        self.expect(right, f"my_{name} printed:\n{ran.stdout}{ran.stderr}")


def shell(commands, folder, **names):
    """Runs commands in a folder up to the first that fails, with more names in the environment."""
    words = ["bash", "-e", "-c", commands]
    env = {**os.environ, **names}
    return subprocess.run(words, cwd=folder, env=env, capture_output=True, text=True)


def main():
    parser = parser_of(__doc__)
    parser.add_argument("--run", action="store_true", help="also run commands and programs")
    words = parser.parse_args()
    pages = Pages()
    pages.check()
    if words.run and not pages.faults:
        pages.run()
    for fault in pages.faults:
        print(fault)
    print("README, GUIDE and LINT are right" if not pages.faults
          else f"{len(pages.faults)} faults in README, GUIDE and LINT")
    sys.exit(1 if pages.faults else 0)


if __name__ == "__main__":
    main()
