#!/usr/bin/env python3
"""real_models.py: runs gltf_lint over the glTF documents that packages of Debian hold.

`python3 tools/real_models.py [FOLDER]` takes the documents below FOLDER. Without one it downloads the
packages by `apt-get download` and unpacks them, which needs a network and 800 MB of room. It prints
each code with its numbers of findings and of files. It fails if an error or a warning was found that
isn't listed here, or if one that is listed wasn't found. Each document of the lists was looked
through by hand: it has that fault.

`gltf_lint` is built once by `rt run` in its crate.
"""
import json
import re
import subprocess
import sys
import tempfile
from collections import Counter
from pathlib import Path

from settle import parser_of
from sources import ROOT

LINTER = ROOT / "crates" / "gltf_lint" / "out" / "gltf_lint"
PACKAGES = ("assimp-testmodels", "castle-game-engine-doc", "qt3d5-examples")
GRAVE = {"error", "warning"}

# What is found in a document, and how often. Those without a comment are wrong on purpose.
EXPECTED = {
    # A container of glTF 1.0.
    "glTF/BoxTextured-glTF-Binary/BoxTextured.glb": {"GLB_INVALID_VERSION": 1},
    # Older than glTF 1.0: `asset.version` is a number.
    "glTF/CesiumMilkTruck/CesiumMilkTruck.gltf": {"TYPE_MISMATCH": 14, "UNEXPECTED_PROPERTY": 5},
    # The accessor of positions has no `min` and `max`.
    "glTF2/BoxWithInfinites-glTF-Binary/BoxWithInfinites.glb": {
        "MESH_PRIMITIVE_POSITION_ACCESSOR_WITHOUT_BOUNDS": 1,
    },
    # Members of an extension of glTF 1.0, without its object.
    "glTF2/BoxTextured-glTF-techniqueWebGL/BoxTextured.gltf": {"UNEXPECTED_PROPERTY": 5},
    "glTF2/IncorrectVertexArrays/Cube.gltf": {
        "BUFFER_VIEW_TOO_LONG": 3,
        "MESH_PRIMITIVE_ACCESSOR_WITHOUT_BYTESTRIDE": 1,
        "MESH_PRIMITIVE_INCOMPATIBLE_MODE": 4,
        "MESH_PRIMITIVE_POSITION_ACCESSOR_WITHOUT_BOUNDS": 6,
    },
    "glTF2/RecursiveNodes/RecursiveNodes.gltf": {"NODE_LOOP": 1, "SCENE_NON_ROOT_NODE": 1},
    "glTF2/SchemaFailures/sceneWrongType.gltf": {"TYPE_MISMATCH": 1},
    "glTF2/TestNoRootNode/NoScene.gltf": {"UNRESOLVED_REFERENCE": 1},
    # Sets of texture coordinates are missing.
    "glTF2/issue_3269/texcoord_crash.gltf": {
        "MESH_PRIMITIVE_INDEXED_SEMANTIC_CONTINUITY": 1,
        "MESH_PRIMITIVE_TOO_FEW_TEXCOORDS": 1,
    },
    "glTF2/wrongTypes/badArray.gltf": {"TYPE_MISMATCH": 1},
    "glTF2/wrongTypes/badExtension.gltf": {"TYPE_MISMATCH": 1},
    "glTF2/wrongTypes/badNumber.gltf": {"TYPE_MISMATCH": 1, "UNDEFINED_PROPERTY": 1},
    "glTF2/wrongTypes/badObject.gltf": {"TYPE_MISMATCH": 1},
    "glTF2/wrongTypes/badString.gltf": {"TYPE_MISMATCH": 1},
    "glTF2/wrongTypes/badUint.gltf": {"INVALID_INDEX": 1},
    # Older than glTF 1.0 too.
    "qt3d/exampleresources/assets/gltf/wine/wine.gltf": {
        "TYPE_MISMATCH": 15,
        "UNEXPECTED_PROPERTY": 5,
    },
}
# Warnings that say what is so, of documents as exporters write them: a skinned mesh below another
# node, and a normal texture on primitives without tangents.
USUAL = {"NODE_SKINNED_MESH_NON_ROOT", "MESH_PRIMITIVE_GENERATED_TANGENT_SPACE"}


def unpacked(folder):
    """Downloads the packages and unpacks them into a folder."""
    for package in PACKAGES:
        subprocess.run(["apt-get", "download", "-qq", package], cwd=folder, check=True)
    for package in Path(folder).glob("*.deb"):
        subprocess.run(["dpkg-deb", "-x", package, folder], check=True)
    return folder


def lines_over(folder):
    """What the linter prints of the documents below a folder."""
    run = subprocess.run([LINTER, "--json", folder], stdout=subprocess.PIPE, text=True, check=False)
    if run.returncode not in (0, 1, 2):
        sys.exit(f"gltf_lint ended with status {run.returncode}")
    return [json.loads(line) for line in run.stdout.splitlines()]


def tail(file):
    """A file's name below the folder of its package's models or examples."""
    return re.split("/(?:models|examples)/", file, maxsplit=1)[-1]


def main():
    parser = parser_of(__doc__)
    parser.add_argument("folder", nargs="?", metavar="FOLDER", help="where the documents are")
    given = parser.parse_args().folder
    if not LINTER.exists():
        sys.exit("gltf_lint isn't built: `rt run -- --help` in crates/gltf_lint builds it")
    if given:
        lines = lines_over(given)
    else:
        with tempfile.TemporaryDirectory() as folder:
            lines = lines_over(unpacked(folder))
    found, files, grave = Counter(), {}, {}
    for line in lines:
        if line["kind"] != "finding":
            continue
        code = line["code"]
        found[code] += 1
        files.setdefault(code, set()).add(line["file"])
        if line["severity"] in GRAVE and code not in USUAL:
            grave.setdefault(tail(line["file"]), Counter())[code] += 1
    for code in sorted(found):
        print(f"{code}: {found[code]} in {len(files[code])} files")
    refused = sum(line["kind"] == "refusal" for line in lines)
    print(f"{refused} files are refused")
    faults = 0
    for file in sorted(grave.keys() | EXPECTED.keys()):
        there, due = dict(grave.get(file, {})), EXPECTED.get(file, {})
        if there != due:
            print(f"{file}: found {there}, expected {due}", file=sys.stderr)
            faults += 1
    sys.exit(1 if faults else 0)


if __name__ == "__main__":
    main()
