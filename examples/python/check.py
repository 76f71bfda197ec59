"""Checks a glTF document, or writes it anew.

    check.py FILE          prints what is wrong in a document
    check.py FILE NAMES    the same, if it may require the extensions NAMES alone, one a line
    check.py -j FILE       the same as JSON, an object a line
    check.py -f FILE       prints what the specification requires and the file doesn't have
    check.py -w FILE       writes the document anew

The exit status is that of the call. The package `gltf_c` comes from the wheel, or from
crates/gltf_c/python with a library that GLTF_C names. tools/run_c.py runs this program.
"""
import sys
from pathlib import Path

import gltf_c


def main(words):
    if len(words) == 2 and words[0] == "-w":
        status, output = gltf_c.rewrite(Path(words[1]).read_bytes())
    elif len(words) == 2 and words[0] == "-j":
        status, output = gltf_c.check_json(Path(words[1]).read_bytes(), words[1])
    elif len(words) == 2 and words[0] == "-f":
        status, output = gltf_c.findings_json(Path(words[1]).read_bytes(), words[1])
    elif len(words) == 2:
        status, output = gltf_c.check_by(Path(words[0]).read_bytes(), words[1].splitlines())
    elif len(words) == 1:
        status, output = gltf_c.check(Path(words[0]).read_bytes())
    else:
        sys.exit("check.py FILE, check.py FILE NAMES, or check.py with -j, -f or -w and FILE")
    sys.stdout.buffer.write(output)
    sys.stdout.flush()
    sys.exit(status)


if __name__ == "__main__":
    main(sys.argv[1:])
