#!/bin/sh
# Times the audit and the depth finder on the largest mesh that a step may leave, through the header: station/audit.sh [RUNS]
# Needed: the Rattle kit, cc.
set -eu
here=$(cd "$(dirname "$0")" && pwd)
root=$here/..
. "$root/tools/needed.sh"
needed station/audit.sh rt cc
"$here/library.sh"
mkdir -p "$here/target"
cc -std=c11 -D_POSIX_C_SOURCE=199309L -O2 -Wall -Wextra -Werror -o "$here/target/audit" "$here/audit.c" "$root/target/staticlib/libstation.a"
"$here/target/audit" "${1:-100}"
