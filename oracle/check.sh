#!/bin/sh
# Builds the oracle if it is not up to date, and checks that it gives document 01's figures and document 02's.
# Needed: as for build.sh.
set -eu
here=$(cd "$(dirname "$0")" && pwd)
passed=0
failed=0

# The answers to the texts of the input, with so many steps.
oracle() {
    "$here/target/oracle" "$1"
}

# The text of a sample, and the answers to it.
mesh() {
    cat "$here/samples/$1.mesh"
}
answers() {
    mesh "$1" | oracle "$2"
}

# The lines of one stage.
stage() {
    awk -v line="[stage $1]" '/^\[stage /{inside = $0 == line; next} inside'
}

# The number of points, edges and faces of a listing.
counts() {
    awk '{rows[$1]++} END {print rows["[point"] + 0, rows["[edge"] + 0, rows["[face"] + 0}'
}

# The intervals of the edges that leave the face point of a face, which is corner 0 of the face's row.
joining() {
    awk -v face="$1" '
        $1 == "[edge" {origin[edges] = $2; interval[edges++] = substr($10, 1, 16)}
        $1 == "[face" && faces++ == face {point = $3}
        END {for (e = 0; e < edges; e++) if (origin[e] == point) printf "%s ", interval[e]}'
}

# Says whether what came out is what was expected.
expect() {
    if [ "$2" = "$3" ]; then
        passed=$((passed + 1))
    else
        failed=$((failed + 1))
        printf 'FAILED %s\n  expected: %s\n  given:    %s\n' "$1" "$2" "$3"
    fi
}

"$here/build.sh"
one=3ff0000000000000
two=4000000000000000
half=3fe0000000000000
corner=bfdc71c71c71c71c
ninths=bfe1c71c71c71c72

expect "no points, no faces" "0 0 0" "$(answers empty 1 | stage 1 | counts)"
expect "cube, counts" "8 12 6" "$(answers cube 1 | stage 0 | counts)"
expect "cube, counts after a step" "26 48 24" "$(answers cube 1 | stage 1 | counts)"
expect "cube, counts after two steps" "98 192 96" "$(answers cube 2 | stage 2 | counts)"
expect "cube, point 0" "[point $corner $corner $corner" \
    "$(answers cube 1 | stage 1 | awk 'NR == 2 {print $1, $2, $3, $4}')"
expect "cube, joining intervals of face 0" "$two $two $two $two " "$(answers cube 1 | stage 1 | joining 0)"
expect "cube, joining intervals of face 2" "$one $two $one $two " "$(answers cube 1 | stage 1 | joining 2)"
expect "cube, joining intervals of face 5" "$one $one $one $one " "$(answers cube 1 | stage 1 | joining 5)"
expect "cube, other first points" "$(answers cube 2)" \
    "$(mesh cube | sed 's/\[[0-9]* \[/[4294967295 [/g' | oracle 2)"
expect "cube, faces visited in listed numbered order" "$(answers cube 1)" \
    "$( (mesh cube; echo "[order 0 1 2 3 4 5]") | oracle 0)"
expect "two triangles, counts" "3 3 2" "$(answers two-triangles 1 | stage 0 | counts)"
expect "two triangles, counts after a step" "8 12 6" "$(answers two-triangles 1 | stage 1 | counts)"
expect "sums 1, 2, 2, 1 pass" "26 48 24" "$(answers cube-sums-1-2-2-1 1 | stage 1 | counts)"
expect "sums t, 0, 0, 0 pass" "8 12 6" "$(answers two-triangles-small-sum 1 | stage 1 | counts)"
expect "64-gons pass" "130 256 128" "$(answers pillow-64 1 | stage 1 | counts)"
expect "next above t" "[error 13]" "$(answers error-13-above-t 1 | stage 0)"
expect "a third face" "[error 14]" "$(answers error-14 1 | stage 0)"
expect "an open mesh" "[error 20]" "$(answers error-20 1 | stage 0)"
expect "a panic" "[panic]" "$(answers beyond-11 1 | stage 0)"
expect "a walk without end" "[endless]" "$(answers beyond-10-one 1 | stage 1)"
expect "another version" "[error 1]" "$(mesh cube | sed 's/mesh 1/mesh 3/' | oracle 1 | stage 0)"
expect "a leading zero" "[error 1]" "$(mesh cube | sed 's/\[7 /[07 /' | oracle 1 | stage 0)"
# The six files once more, of which one stands there altered already, or twice over.
altered=$here/target/tree/altered
twice=$here/target/twice
rm -rf "$twice"
cp -rL "$here/target/tree/t_spline" "$twice"
cat "$here/target/tree/t_spline/t_nurcc/mod.rs" >>"$twice/t_nurcc/mod.rs"
occurs() {
    python3 "$here/alter.py" "$1" "$here/target/again" 4-side-test 2>&1 | sed 's/, not once.*//'
}
expect "an altered piece that does not occur" "alteration 4-side-test: in t_nurcc/mod.rs this occurs 0 times" "$(occurs "$altered")"
expect "an altered piece that occurs twice" "alteration 4-side-test: in t_nurcc/mod.rs this occurs 2 times" "$(occurs "$twice")"
expect "no last byte 10" "[error 1]" "$(printf '[mesh 1]\n[end]' | oracle 1 | stage 0)"
expect "text 2, an interval belongs to the edge that arrives" "$(answers text-2-cube 2)" \
    "$(mesh text-2-cube | sed "s/mesh 2/mesh 1/; s/ $one]]/ -]]/g; s/ $two]]/ $one]]/g; s/ -]]/ $two]]/g" | oracle 2)"
expect "text 2, sums 2, 0, 2, 0 pass" "8 12 6" "$(answers text-2-triangles 1 | stage 1 | counts)"
expect "text 2, its own side test is passed over" "8 12 6" "$(answers beyond-13-sums-1-2-2-1 1 | stage 0 | counts)"
expect "text 2, a third face" "[error 14]" "$(answers error-14-text-2 1 | stage 0)"
published=$(cat "$here/samples/cube.mesh" "$here/samples/published-cube.orders" | oracle 0)
expect "second edition, cube, point 0" "[point $ninths $ninths $ninths" \
    "$(echo "$published" | stage 1 | awk 'NR == 2 {print $1, $2, $3, $4}')"
expect "second edition, cube, joining intervals" "$half $half $half $half $half $half $half $half $half $half $half $half " \
    "$(for face in 0 2 5; do echo "$published" | stage 1 | joining "$face"; done)"
expect "second edition, cube, all intervals" "     48 $half]" \
    "$(echo "$published" | stage 1 | awk '$1 == "[edge" {print $10}' | sort | uniq -c)"
expect "several texts in one input" "$(answers cube 1; answers error-13 1; answers two-triangles 1)" \
    "$( (mesh cube; mesh error-13; mesh two-triangles) | oracle 1)"

echo "oracle: $passed passed, $failed failed"
[ "$failed" = 0 ]
