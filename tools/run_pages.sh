#!/usr/bin/env bash
# Goes the way of a new user: runs the commands and programs of README.md and docs/C.md in clean
# folders, and compares what they print with what the pages say. It takes some minutes.
#
# It needs the proved builds of gltf_lint, gltf_report and gltf_c, which `rt ci` makes. `rt run` in
# the first two crates and `rt lib` in the third make them too.
set -euo pipefail
if [ $# -gt 0 ]; then
    sed -n '2,/^set /{/^#/s/^# \?//p}' "$0"
    [ "$*" = --help ]
    exit
fi
cd "$(dirname "$0")/.."
python3 tools/run_readme.py --run
python3 tools/run_c.py --built --dist
