# For bench/run and its test: sourced behind scripts/archive.sh. Products stand in target/bench.
. scripts/packages.sh

# Sets `sqlite` to what bench/evaluate and bench/totals are linked with: SQLite, or a stand-in that answers nothing where SQLite cannot be
# had, which is a failure.
provide_sqlite() {
    sqlite=(bench/evaluate/sqlite.c -lsqlite3)
    provide libsqlite3-dev gcc -E -include sqlite3.h -x c /dev/null && return
    sqlite=(bench/evaluate/no_sqlite.c)
    return 1
}

# compile_evaluate OUTPUT: the program that compares and times evaluations, behind provide_sqlite.
compile_evaluate() {
    compile_c "$1" bench/{clock,record}.c bench/check/table.c bench/rewrite/query.c \
        bench/evaluate/{evaluate,plain,questions,store}.c "${sqlite[@]}" -lm
}

# compile_totals OUTPUT: the program that compares and times totals, behind provide_sqlite.
compile_totals() {
    compile_c "$1" bench/{clock,record}.c bench/evaluate/store.c bench/totals/{group,questions,tables,totals}.c "${sqlite[@]}" -lm
}

# compile_ceiling: the program that compares and times ceilings.
compile_ceiling() {
    compile_c target/bench/ceiling bench/{clock,record}.c bench/evaluate/store.c bench/ceiling/ceiling.c -lm
}

# compile_text: the program that times the reading of typed queries.
compile_text() {
    compile_c target/bench/text bench/clock.c bench/text/text.c -lm
}

# compile_call CALL: the program that compares and times a call that has a folder of its own.
compile_call() {
    compile_c "target/bench/$1" bench/{clock,record}.c bench/"$1"/*.c
}

# compile_plain OUTPUT: the plain C evaluation as an object, under the name of our call.
compile_plain() {
    compile_c "$1" -r -Dplain_evaluate=randwyler_evaluate bench/check/table.c bench/rewrite/query.c bench/evaluate/plain.c
}
