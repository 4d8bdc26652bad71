#!/bin/sh
# Makes the static library, compiles and runs the two examples and those of the manual, tests the header against the library,
# and looks for integer divisions: station/run.sh
# Needed: the Rattle kit, cc, rustc, python3.
set -eu
here=$(cd "$(dirname "$0")" && pwd)
root=$here/..
. "$root/tools/needed.sh"
needed station/run.sh rt cc rustc python3
out=$here/target
library=$root/target/staticlib/libstation.a
samples=$root/oracle/samples
passed=0
failed=0

# Says whether two files are the same.
expect() {
    if cmp -s "$2" "$3"; then
        passed=$((passed + 1))
    else
        failed=$((failed + 1))
        echo "FAILED $1: $2 and $3 differ"
    fi
}

# What the library is to print of a sample. The Rust's errors are refusals; where document 01 refuses on a ground of its
# own, the Rust goes on: `beyond-N` samples are refused with N, and these four meet 33 in their first step.
expected() {
    case $1 in
    beyond-*) number=${1#beyond-}; number=${number%%-*}; printf '[stage 0]\n[refused %s]\n' "${number#0}" ;;
    cube-zero | cube-overflow | cube-underflow | cube-far) sed '/^\[stage 1\]/q' "$samples/$1.out"; echo '[refused 33]' ;;
    *) sed 's/^\[error /[refused /' "$samples/$1.out" ;;
    esac
}

"$here/library.sh"
mkdir -p "$out/records"
python3 "$here/declarations.py" "$root/crates/station_c/src/lib.rt" "$root/crates/station/src/lib.rt" "$here/lavyngo.h"
"$here/divisions.sh"

cc -std=c11 -O2 -Wall -Wextra -Werror -o "$out/example_c" "$here/example.c" "$library"
rustc --edition 2024 -O -C link-arg="$library" -o "$out/example_rs" "$here/example.rs"
"$out/example_c" >"$out/example_c.out"
"$out/example_rs" >"$out/example_rs.out"
expect "the C example" "$samples/cube.out" "$out/example_c.out"
expect "the Rust example" "$samples/cube.out" "$out/example_rs.out"

cc -std=c11 -O2 -Wall -Wextra -Werror -o "$out/records_c" "$here/records.c" "$library"
while read -r name steps _; do
    [ -f "$samples/$name.orders" ] && continue
    expected "$name" >"$out/records/$name.expected"
    "$out/records_c" "$steps" <"$samples/$name.mesh" >"$out/records/$name.out"
    expect "$name" "$out/records/$name.expected" "$out/records/$name.out"
done <"$samples/INDEX"

python3 "$here/manual.py" "$root/docs/MANUAL.md" "$library" "$out"

echo "station: $passed passed, $failed failed"
[ "$failed" = 0 ]
