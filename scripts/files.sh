# For tests that run a program on small files: sourced behind scripts/archive.sh, with `files` set to a folder for them.

# new_files: the folder, empty.
new_files() {
    rm -rf "$files"
    mkdir -p "$files"
}

# file NAME HEX...: a file with these bytes.
file() {
    local hex
    hex=$(printf '%s' "${@:2}" | tr -d ' ')
    printf "$(sed 's/../\\x&/g' <<<"$hex")" >"$files/$1"
    [ "$(stat -c %s "$files/$1")" -eq $((${#hex} / 2)) ] || fail "$1 has not ${#hex} / 2 bytes"
}

# times COUNT TEXT: the text so many times.
times() {
    local i
    for ((i = 0; i < $1; i++)); do printf '%s' "$2"; done
}

# expect_from STATUS LINES COMMAND...: the command, run in the folder of the files, ends with this status and prints these lines
# (standard output and error together).
expect_from() {
    local said status=0
    said=$(cd "$files" && "${@:3}" 2>&1) || status=$?
    if [ "$status" -eq "$1" ] && [ "$said" = "$2" ]; then
        passed=$((passed + 1))
    else
        fail "${*:3}: status $status and '$said', expected status $1 and '$2'"
    fi
}
