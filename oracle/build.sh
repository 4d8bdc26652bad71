#!/bin/sh
# Builds the oracle as oracle/target/oracle, over the library oracle/target/liboracle.rlib, unless both are younger than
# what they are made of. The six Rust files are compiled from copies in target/, as `rt ci` takes no link below the repository's
# folder, after their sums are compared with SOURCES.sha256; they are looked for in $TNURCC_SRC, or in shared/docs/src beside the
# repository. A second time they are compiled with some places altered (alter.py): those that alterations/ON names, or
# $ORACLE_ALTERATIONS.
# Needed: rustc, cc, python3, the six Rust files.
set -eu
here=$(cd "$(dirname "$0")" && pwd)
root=$here/..
. "$root/tools/needed.sh"
needed oracle/build.sh rustc cc python3 sources
tree=$here/target/tree
oracle=$here/target/oracle
sources=$(cd "$sources" && pwd)
if ! (cd "$sources" && sha256sum --check --quiet "$here/SOURCES.sha256"); then
    echo "oracle: the sources in $sources are not the six files" >&2
    exit 1
fi
on=${ORACLE_ALTERATIONS-$(cat "$here/alterations/ON")}
on=$(echo $on)
if [ -x "$oracle" ] && [ "$on" = "$(cat "$here/target/on" 2>/dev/null)" ] && [ -z "$(find "$here/src" "$here/alterations" \
    "$here/alter.py" "$here/build.sh" "$here/SOURCES.sha256" -newer "$oracle" -type f)" ]; then
    exit 0
fi

rm -rf "$tree"
mkdir -p "$here/target"
cp -r "$here/src" "$tree"
cp -r "$here/src/t_spline" "$tree/altered"
t_spline=$sources/kernel/monstertruck-geometry/src/t_spline
cp -R "$t_spline"/mod.rs "$t_spline"/t_nurcc "$t_spline"/t_nurcc_edge "$t_spline"/t_nurcc_iter.rs \
    "$t_spline"/t_nurcc_control_point.rs "$t_spline"/t_nurcc_face.rs "$tree/t_spline"
chmod -R u+w "$tree"
python3 "$here/alter.py" "$t_spline" "$tree/altered" $on
rustc --edition 2024 -O --crate-type rlib --crate-name oracle -o "$here/target/liboracle.rlib" "$tree/lib.rs"
rustc --edition 2024 -O --crate-name oracle_main --extern oracle="$here/target/liboracle.rlib" \
    -o "$oracle" "$tree/main.rs"
echo "$on" >"$here/target/on"
