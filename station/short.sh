#!/bin/sh
# The short edition for the gate: the examples and the header, some generated meshes, damaged inputs and mended texts: station/short.sh [SEED]
# Needed: the Rattle kit, cc, rustc, python3, and the six Rust files (oracle/README.md).
set -eu
here=$(cd "$(dirname "$0")" && pwd)
root=$here/..
. "$root/tools/needed.sh"
needed station/short.sh rt cc rustc python3 sources
# the harness is compiled while the library is made
"$here/compile.sh" &
compiling=$!
"$here/library.sh"
wait "$compiling"
"$here/run.sh"
"$here/harness.sh" tampered
"$here/harness.sh" compare 2000 "${1:-1}"
"$here/harness.sh" fuzz 2000 "${1:-1}"
"$here/harness.sh" mend 2000 "${1:-1}"
