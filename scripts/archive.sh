# For scripts that link the archive or run the program `strikes`: sourced in the repository's top folder, with `name` set to the
# script's name. RANDWYLER_ARCHIVE=FILE tests another archive with the same calls in the place of ours, RANDWYLER_STRIKES=FILE
# another program.

passed=0
failed=0
archive= # none is built yet
objects=() # C objects that Rust test programs are linked with

say() { printf '%s: %s\n' "$name" "$*"; }

# Counts a failure and says what failed.
fail() {
    say "FAILED: $*"
    failed=$((failed + 1))
}

# Ends a test with its last line.
finish() {
    echo "$passed passed, $failed failed"
    [ "$failed" -eq 0 ] || exit 1
    exit 0
}

# prove COMMAND CRATE: rt with this command in the crate's folder, which proves and builds all that the crate needs first.
prove() {
    local count
    command -v rt >/dev/null || {
        say "the Rattle kit's command rt is not in PATH: see README.md, \"Run it\", and docs/DECISIONS.md, \"Toolchain\""
        return 1
    }
    count=$(awk -F': *' -v names="$2" '{ split($1, words, " "); needs[words[1]] = $2 }
        END {
            queued = split(names, queue, " ")
            for (i = 1; i <= queued; i++) {
                if (!(queue[i] in needs) || queue[i] in seen) continue
                seen[queue[i]]
                found++
                added = split(needs[queue[i]], more, " ")
                for (j = 1; j <= added; j++) queue[++queued] = more[j]
            }
            print found
        }' crates.txt)
    (cd "crates/$2" && "rt_$1") </dev/null | scripts/progress "$count"
}

# rt_lib, rt_run: rt lib; rt run, which also runs the program there: what that prints, alone on standard output, is let go.
rt_lib() { rt lib 2>&1; }
rt_run() { rt run 2>&1 >/dev/null; }

# put FILE COPY: the copy gets its name when it is complete, since another run may use the one that is there.
put() {
    mkdir -p "$(dirname "$2")"
    cp "$1" "$2.$$" && mv -f "$2.$$" "$2"
}

# Builds the archive and sets `archive` to its path.
build_archive() {
    if [ -n "${RANDWYLER_ARCHIVE:-}" ]; then
        archive=$RANDWYLER_ARCHIVE
        say "takes the archive $archive (RANDWYLER_ARCHIVE)"
    else
        archive=target/staticlib/librandwyler.a
        say "building $archive"
        prove lib randwyler_c && put crates/randwyler_c/out/librandwyler_c.a "$archive" || return 1
    fi
    [ -f "$archive" ] || { say "there is no archive $archive"; return 1; }
}

# The same for a test, which fails if there is no archive.
archive_or_finish() {
    build_archive || { fail "the archive cannot be built"; finish; }
}

# Builds the program `strikes` and sets `strikes` to its path.
build_strikes() {
    if [ -n "${RANDWYLER_STRIKES:-}" ]; then
        strikes=$RANDWYLER_STRIKES
        say "takes the program $strikes (RANDWYLER_STRIKES)"
    else
        strikes=target/bin/strikes
        say "building $strikes"
        prove run strikes && put crates/strikes/out/strikes "$strikes" || return 1
    fi
    [ -f "$strikes" ] && [ -x "$strikes" ] || { say "there is no program $strikes"; return 1; }
}

# compile OUTPUT ARGUMENT...: gcc with these arguments. A warning is an error.
compile() {
    mkdir -p "$(dirname "$1")"
    gcc -std=c11 -Wall -Wextra -Wconversion -Werror -O2 -Iinclude "${@:2}" -o "$1"
}

# compile_c OUTPUT SOURCE...: a C program with the archive.
compile_c() { compile "$@" "$archive"; }

# compile_object OUTPUT SOURCE: an object of a C source, without the archive.
compile_object() { compile "$1" -c "$2"; }

# compile_display OUTPUT, compile_compare OUTPUT: the C display; the program that evaluates a query beside its rewriting.
compile_display() {
    compile_c "$1" display/{display,files,refusal,tree}.c
}
compile_compare() {
    compile_c "$1" display/{compare,files,refusal,row,tree}.c
}

# compile_typed OUTPUT: the program by which tools/typed calls the reader of typed queries.
compile_typed() {
    compile_c "$1" -Idisplay tools/typed.c display/{files,tree}.c
}

# build_program PROGRAM OUTPUT: builds the archive and, by compile_PROGRAM, a program with it. The program gets its name when it is
# complete, since another run may use the one that is there.
build_program() {
    build_archive && "compile_$1" "$2.$$" && mv -f "$2.$$" "$2"
}

# run_program SOURCE [COMMAND...]: compiles a Rust test program, with `objects`, and with the archive if `archive` is set, runs it (by
# a command, if there is one) and adds the counts of its last line. Products stand in target/tests.
run_program() {
    local source=$1 program file linked=()
    program=target/tests/$(basename "$source" .rs)
    mkdir -p target/tests
    for file in "${objects[@]}" ${archive:+"$archive"}; do linked+=(-C "link-arg=$file"); done
    # Modules are shared by the programs, and none has to use all of one.
    rustc -O --edition 2021 -D warnings -A dead_code "${linked[@]}" -o "$program" "$source" || {
        fail "$source does not compile"
        return
    }
    run_counted "$program.log" "${@:2}" "$program"
}

# run_counted LOG COMMAND...: runs a test program and adds the counts of its last line.
run_counted() {
    local log=$1 last status=0
    say running "${@:2}"
    "${@:2}" 2>&1 | tee "$log" || status=$?
    last=$(tail -n 1 "$log")
    if [[ ! $last =~ ^([0-9]+)\ passed,\ ([0-9]+)\ failed$ ]]; then
        fail "${*:2} ended with status $status and without its counts"
        return
    fi
    passed=$((passed + BASH_REMATCH[1]))
    failed=$((failed + BASH_REMATCH[2]))
    if [ "$status" -ne 0 ] && [ "${BASH_REMATCH[2]}" -eq 0 ]; then fail "${*:2} ended with status $status"; fi
}
