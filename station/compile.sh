#!/bin/sh
# Compiles the oracle and what stands in src/ but for the program, unless they are up to date: station/compile.sh
# The library for stations need not be there yet: harness.sh links it.
# Needed: rustc, cc, python3, and the six Rust files (oracle/README.md).
set -eu
here=$(cd "$(dirname "$0")" && pwd)
root=$here/..
. "$root/tools/needed.sh"
needed station/compile.sh rustc cc python3 sources
out=$here/target
oracle=$root/oracle/target/liboracle.rlib
harness=$out/libharness.rlib

"$root/oracle/build.sh"
mkdir -p "$out"
if [ ! -f "$harness" ] || [ -n "$(find "$here/src" "$here/lavyngo.rs" "$oracle" -newer "$harness" -type f)" ]; then
    rustc --edition 2024 -O --crate-type rlib --crate-name harness --extern oracle="$oracle" -o "$harness" "$here/src/lib.rs"
fi
