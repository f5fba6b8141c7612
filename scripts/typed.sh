# For scripts that take a typed query: sourced with `top` set to the repository's top folder, and `name` to the script's name.

# read_typed TEXT: sets `made` to a new folder, in which query.bin is the query of a typed text. The folder is removed when the script
# ends, also by a signal. Without a query the script ends, with the status of tools/typed, which says why.
read_typed() {
    made=$(mktemp -d 2>/dev/null) || { echo "$name: cannot make a temporary folder" >&2; exit 2; }
    trap 'rm -rf "$made"' EXIT
    "$top/tools/typed" -- "$1" "$made/query.bin" >/dev/null || exit
}
