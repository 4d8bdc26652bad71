#!/bin/sh
# Makes target/staticlib/libstation.a, unless it is younger than every file that it is made of: station/library.sh [--proved]
#
# It is the archive of the crate station_c (crates/station_c/out/libstation_c.a). `rt lib` makes it over the libraries that earlier runs of
# `rt lib` and `rt check` have kept here or in another checkout on the machine, and proves the others first, one after the other.
#
# With --proved the archive is made over what `rt ci` has just proved and left in the crates' out/: this is for .ci/run, right after `rt ci`
# in a checkout in which nothing had been made before. `rt lib` would prove all of that again, since it takes nothing of a gate's. Only
# station_c is proved here, over what `rt ci` proved of the crates below it; where that cannot be used, `rt lib` makes the archive.
# Needed: the Rattle kit.
set -eu
here=$(cd "$(dirname "$0")" && pwd)
root=$(cd "$here/.." && pwd)
. "$root/tools/needed.sh"
needed station/library.sh rt
library=$root/target/staticlib/libstation.a
made=$root/crates/station_c/out/libstation_c.a
log=$root/target/log/station.library

# The compiler of the kit by itself, with the words that `rt lib` gives it.
over_what_is_proved() {
    kit=$(dirname "$(rt doc)")
    set -- --crate-name station_c src/lib.rt --extern "std=$kit/rlibs/std.rlib" -L "dependency=$kit/rlibs"
    for crate in $(sed -n 's/^station_c staticlib: //p' "$root/crates.txt"); do
        set -- "$@" --extern "$crate=$root/crates/$crate/out/rlib/$crate.rlib"
    done
    for folder in "$root"/crates/*/out/rlib; do
        set -- "$@" -L "dependency=$folder"
    done
    mkdir -p "$root/crates/station_c/out"
    cd "$root/crates/station_c" && "$kit/bin/rattle" build "$@" --antt-project "$kit/rattle/logic/antt-project.json" \
        --logic-built "$kit/logic_built" --jobs 2 --links station_c= --crate-type staticlib --toolchain "$kit/toolchain" -o "$made"
}

make_library() {
    if [ "${1:-}" = --proved ]; then
        rm -f "$made"
        (over_what_is_proved) && return
        echo "station/library.sh: not made over what rt ci proved, so rt lib makes it"
    fi
    (cd "$root/crates/station_c" && rt lib)
}

if [ ! -f "$library" ] ||
    [ -n "$(find "$root"/crates/*/src "$root"/crates/*/specs "$root"/crates/*/proofs -newer "$library" -type f)" ]; then
    mkdir -p "$root/target/log" "$(dirname "$library")"
    if ! make_library "$@" >"$log" 2>&1; then
        cat "$log"
        exit 1
    fi
    cp "$made" "$library"
fi
