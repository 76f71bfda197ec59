"""Writes the programs of docs/GUIDE.md: each is the example of `gltf_examples` that the text before it
names with the crates that it uses, as in `my_checker: gltf_json anyhow`.

`python3 tools/gen_guide.py` writes them; `--check` says whether they are current, and ends with
status 1 and a short diff if one isn't. The rest of the page is by hand.
"""
import re
import sys

from run_readme import EXAMPLES, PAGES, program_of
from settle import is_check, settle

# A program, and the last name before it.
PROGRAM = re.compile(r"(?s)`my_(\w+): [\w ]+`(?:(?!`my_).)*?\n```rust\n(.*?)^```$", re.M)


def main():
    check = is_check(__doc__)
    text = PAGES["GUIDE"].read_text()
    missing = [name for name, _ in PROGRAM.findall(text)
               if not (EXAMPLES / "src" / f"{name}.rt").exists()]
    if missing or len(PROGRAM.findall(text)) != text.count("\n```rust\n"):
        sys.exit(f"docs/GUIDE.md: each program needs a line with an example's name: {missing}")

    def written(found):
        program = program_of(EXAMPLES / "src" / f"{found[1]}.rt")
        return f"{found[0][:found.start(2) - found.start()]}{program}```"
    settle({PAGES["GUIDE"]: PROGRAM.sub(written, text)}, check)


if __name__ == "__main__":
    main()
