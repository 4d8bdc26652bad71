#!/bin/sh
# Makes all samples anew in oracle/target/samples and says whether they differ from those in oracle/samples.
# With --write they are put in their place.
# Needed: python3, and as for build.sh.
set -eu
here=$(cd "$(dirname "$0")" && pwd)
root=$here/..
. "$root/tools/needed.sh"
needed oracle/record.sh python3 rustc cc sources
fresh=$here/target/samples

"$here/build.sh"
rm -rf "$fresh"
mkdir -p "$fresh"
python3 "$here/generate.py" "$fresh"
while read -r name steps _; do
    orders=$fresh/$name.orders
    [ -f "$orders" ] || orders=/dev/null
    cat "$fresh/$name.mesh" "$orders" | "$here/target/oracle" "$steps" >"$fresh/$name.out"
done <"$fresh/INDEX"

if [ "${1:-}" = --write ]; then
    rm -rf "$here/samples"
    cp -r "$fresh" "$here/samples"
fi
count=$(wc -l <"$fresh/INDEX")
if diff -rq "$here/samples" "$fresh"; then
    echo "$count samples, all as recorded"
else
    echo "$count samples, not all as recorded"
    exit 1
fi
