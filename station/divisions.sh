#!/bin/sh
# Says that no integer division stands in the code of building and of the step, as the archive has it: station/divisions.sh
# The same search must find the remainder in a C function that has one. Needed: cc, python3, objdump for x86-64; where objdump is not
# here, it says so.
set -eu
here=$(cd "$(dirname "$0")" && pwd)
out=$here/target
library=$here/../target/staticlib/libstation.a

if ! command -v objdump >/dev/null || [ "$(uname -m)" != x86_64 ]; then
    echo "divisions: not looked for, objdump for x86-64 is not here"
    exit 0
fi
"$here/library.sh"
mkdir -p "$out"
echo 'unsigned step(unsigned i, unsigned n) { return (i + 1) % n; } unsigned twice(unsigned i, unsigned n) { return step(step(i, n), n); }' |
    cc -x c -O1 -fno-inline -ffunction-sections -c -o "$out/remainder.o" -
if python3 "$here/divisions.py" "$out/remainder.o" twice >"$out/remainder.out"; then
    echo "divisions: the remainder in a C function is not found"
    exit 1
fi
python3 "$here/divisions.py" "$library" lavyngo_step lavyngo_step_published lavyngo_build lavyngo_build_2
