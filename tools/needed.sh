# What the scripts of oracle/, station/ and .ci/ need, said once. A script sets $root to the repository's folder and reads this file.
#
#     $sources                the folder of the six Rust files
#     missing THING..         a line for each thing that is not here, and false if there is one; a thing is a command, or `sources`
#     needed SCRIPT THING..   the same, and where something is missing the script ends there, before it compiles or proves anything

sources=${TNURCC_SRC:-$root/../shared/docs/src}

missing() {
    lacking=0
    for thing; do
        case $thing in
        sources) [ -d "$sources" ] || { lacking=1; echo "the Rust sources are not in $sources (TNURCC_SRC names their folder)"; } ;;
        *) command -v "$thing" >/dev/null || { lacking=1; echo "$thing is not here"; } ;;
        esac
    done
    return "$lacking"
}

needed() {
    script=$1
    shift
    missing "$@" | sed "s|^|$script: |" >&2
    missing "$@" >/dev/null || exit 1
}
