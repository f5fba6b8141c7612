# For the scripts of this folder: sourced with `name` set to the script's name, and `usage` a function that prints its usage.
unset CDPATH
top=$(cd "$(dirname "${BASH_SOURCE[0]}")/.." && pwd)
. "$top/scripts/typed.sh"

# run PROGRAM FACTS QUERY [mean]: builds the archive and a program with it, which is said on standard error, and runs it on the two files;
# `mean` is for compare alone. A query in a file *.txt is a typed one.
run() {
    local program=$1 file
    shift
    case "$#:${1:-}" in
    *:-h | *:--help) usage; exit 0 ;;
    2:*) ;;
    *) [ "$program:$#:${3:-}" = compare:3:mean ] || { usage >&2; exit 2; } ;;
    esac
    # Said before the build, which may take minutes.
    for file in "${@:1:2}"; do
        [ -r "$file" ] && [ ! -d "$file" ] || { echo "$name: cannot read the file '$file'" >&2; exit 2; }
    done
    (cd "$top" && . scripts/archive.sh && build_program "$program" "target/display/$program") >&2 || exit 2
    if [[ $2 == *.txt ]]; then
        RANDWYLER_ARCHIVE=${RANDWYLER_ARCHIVE:-target/staticlib/librandwyler.a} read_typed "$2"
        set -- "$1" "$made/query.bin" "${@:3}"
    fi
    "$top/target/display/$program" "$@"
}
