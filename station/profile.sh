#!/bin/sh
# Where the instructions of one step of the torus of 64 by 64 go, by callgrind: station/profile.sh
# First by function (the library's functions are inlined into lavyngo_step, but for the audit), then the runs of instructions
# that are executed equally often, the largest first.
# Needed: the Rattle kit, rustc, cc, valgrind, python3, and the six Rust files (oracle/README.md).
set -eu
here=$(cd "$(dirname "$0")" && pwd)
root=$here/..
. "$root/tools/needed.sh"
needed station/profile.sh rt cc rustc valgrind python3 sources
out=$here/target/callgrind.out
"$here/harness.sh" profile 1
rm -f "$out"
valgrind -q --tool=callgrind --dump-instr=yes --toggle-collect=lavyngo_step --callgrind-out-file="$out" \
    "$here/target/station" profile 1
python3 "$here/profile.py" "$out"
