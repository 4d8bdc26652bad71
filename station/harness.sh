#!/bin/sh
# Makes the static library, the oracle and the program of src/ if they are not up to date, and runs it:
#
#     station/harness.sh compare [MESHES [SEED]]    the library against the Rust on generated meshes (20,000, seed 1);
#                                                   with 0, or 20,000 and more, also the largest mesh, up to the ceilings
#     station/harness.sh fuzz [CASES [SEED]]        random and damaged lists, texts and tables (50,000, seed 1)
#     station/harness.sh mend [CASES [SEED]]        texts with faces turned, damaged texts and any bytes through the mender,
#                                                   against all choices of faces (20,000, seed 1)
#     station/harness.sh tampered                   changed bits in what the library leaves, which must be found
#     station/harness.sh bench [FACES]              times; the Rust is run on meshes of up to so many faces (all)
#     station/harness.sh obj [FACES]                a shuffled mesh of about so many faces as an OBJ (3,000)
#     station/harness.sh profile [STEPS]            steps of the torus of 64 by 64, for a profiler
#     station/harness.sh stack                      the stack that each function takes
#
# Needed: the Rattle kit, rustc, cc, python3, and the six Rust files (oracle/README.md).
set -eu
here=$(cd "$(dirname "$0")" && pwd)
root=$here/..
. "$root/tools/needed.sh"
needed station/harness.sh rt cc rustc python3 sources
out=$here/target
library=$root/target/staticlib/libstation.a
harness=$out/libharness.rlib

"$here/library.sh"
"$here/compile.sh"
if [ ! -f "$out/station" ] || [ -n "$(find "$here/src/main.rs" "$library" "$harness" -newer "$out/station" -type f)" ]; then
    rustc --edition 2024 -O --crate-name station --extern harness="$harness" -L dependency="$root/oracle/target" \
        -C link-arg="$library" -o "$out/station" "$here/src/main.rs"
fi
exec "$out/station" "$@"
