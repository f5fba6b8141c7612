# Cases by hand for the script ./strikes, with the program in $strikes: sourced by tests/strikes/run, behind scripts/files.sh. The
# script builds nothing here.
program=$(realpath "$strikes")
script=$PWD/strikes
runs="strikes: takes the program $program (RANDWYLER_STRIKES)
strikes: running on facts.bin and query.bin of $PWD"
in_examples="$runs/examples
strikes: query.bin is there: query.txt is not read"
usage='usage: strikes [FOLDER]'

# expect STATUS OUTPUT MESSAGES COMMAND...: the command ends with this status and prints this, and a line feed where it is not empty,
# on standard output and on standard error. Of a usage the first line counts.
expect() {
    local status=0 text output messages
    RANDWYLER_STRIKES=${other-$program} "${@:4}" >"$files/output" 2>"$files/messages" || status=$?
    for text in output messages; do
        [ "$(head -n 1 "$files/$text")" != "$usage" ] || echo "$usage" >"$files/$text"
    done
    output=$(cat "$files/output" && echo end)
    messages=$(cat "$files/messages" && echo end)
    if [ "$status" -eq "$1" ] && [ "$output" = "${2:+$2$'\n'}end" ] && [ "$messages" = "${3:+$3$'\n'}end" ]; then
        passed=$((passed + 1))
    else
        fail "${*:4}: status $status, '${output%end}' and '${messages%end}', expected status $1, '$2' and '$3'"
    fi
}

# folder NAME FACTS QUERY: a folder with these two files, in hexadecimal; - is an absent one.
folder() {
    mkdir "$files/$1"
    [ "$2" = - ] || file "$1/facts.bin" "$2"
    [ "$3" = - ] || file "$1/query.bin" "$3"
}

# refused NUMBER PLACE REASON FOLDER: the script prints the refusal, and says the reason.
refused() {
    expect 1 "refused $1 at $2" "$runs/$files/$4
strikes: refused: $3" ./strikes "$files/$4"
}

new_files
rows='rows 1 peak 6 pairs 4
800 ?0=1 ?1=11'

# The small store W, and the query of examples/.
r1='00 00 10 00 0A 00 00 BF 6C' # 1 10 11, 900
r2='00 00 10 00 0A 00 00 CC B0' # 1 10 12, 200
r3='00 00 10 00 14 00 01 5F 08' # 1 20 21, 800
r4='00 00 20 00 14 00 01 50 00' # 2 20 21, unknown
w="$r1 $r2 $r3 $r4"
A='01 10 00 00 00 00 14 00 00 15' # ?0 20 21
B='01 10 00 00 00 00 0A 10 00 01' # ?0 10 ?1
E='60 5D C7 D0'                   # ensure trust, from 500 on
q="$E 10 $A $B"

# Answers.
folder sound "$w" "$q"
folder 'a folder' "$w" "$q"
folder none '' 00
expect 0 "$rows" "$in_examples" ./strikes
expect 0 "$rows" "$runs/$files/sound" ./strikes "$files/sound"
expect 0 "$rows" "$runs/$files/a folder" ./strikes "$files/a folder/"
expect 0 "$rows" "$runs/$files/a folder" env -C "$files/a folder" "$script" .
mkdir -p "$files/other/sound"
expect 0 "$rows" "$runs/$files/sound" env -C "$files" CDPATH="$PWD/$files/other" "$script" sound
expect 0 "$rows" "$in_examples" env -C "$files" "$script"
expect 0 'rows 1 peak 1 pairs 0
1000' "$runs/$files/none" ./strikes "$files/none"

# Refusals. Five patterns of three variables each have 4 ^ 5 = 1,024 rows on W.
folder r1 "$r1 ${r2% *}" "$q"
folder r2 "$(times 65530 00)" "$q"
folder r3 "$r1 $r2 00 00 10 00 14 00 00 0F 08" "$q"
folder r4 "$r1 $r3 $r2 $r4" "$q"
folder r5 "$w" "$(times 5121 00)"
folder r6 "$w" '00 00'
folder r7 "$w" "$E 51 10 $A $B"
folder r8 "$w" '05 100000 100001 100002 100003 100004 100005 100006 100007 100008 100009 10000A 10000B 10000C 10000D 10000E'
refused 1 0 'facts.bin ends inside a record: its length is no multiple of 9 bytes' r1
refused 2 0 'facts.bin is over 65,529 bytes, the 7,281 records that strikes reads' r2
refused 3 2 'facts.bin: record 2, counted from 0, has a value out of range' r3
refused 4 2 'facts.bin: record 2, counted from 0, is not above the record before it' r4
refused 5 0 'query.bin is over 5,120 bytes' r5
refused 6 1 'query.bin is not one well-formed node: the fault is at byte 1, counted from 0' r6
refused 7 4 'query.bin: the variable of the project trust at byte 4, counted from 0, is used elsewhere too' r7
refused 8 0 'the query needs more than the 963 rows of row space that strikes has' r8

# Files that are not there, or are no files. An absent query, like an empty one, is refused with 6 at 0.
no_query='strikes: refused: query.bin is not one well-formed node: the fault is at byte 0, counted from 0'
no_rows='rows 0 peak 0 pairs 0'
folder no_facts - "$q"
folder no_query "$w" -
folder neither - -
folder folders - -
mkdir "$files/folders/facts.bin" "$files/folders/query.bin"
folder links - "$q"
ln -s absent "$files/links/facts.bin"
expect 0 "$no_rows" "$runs/$files/no_facts
strikes: facts.bin is not there, and counts as empty" ./strikes "$files/no_facts"
expect 1 'refused 6 at 0' "$runs/$files/no_query
strikes: query.bin is not there, and counts as empty
$no_query" ./strikes "$files/no_query"
expect 1 'refused 6 at 0' "$runs/$files/neither
strikes: facts.bin is not there, and counts as empty
strikes: query.bin is not there, and counts as empty
$no_query" ./strikes "$files/neither"
expect 1 'refused 6 at 0' "$runs/$files/folders
strikes: facts.bin is a folder, and counts as empty
strikes: query.bin is a folder, and counts as empty
$no_query" ./strikes "$files/folders"
expect 0 "$no_rows" "$runs/$files/links
strikes: facts.bin is not there, and counts as empty" ./strikes "$files/links"
ln -sf /dev/null "$files/links/facts.bin"
expect 0 "$no_rows" "$runs/$files/links" ./strikes "$files/links"
# Rights do not keep root from reading.
folder locked "$w" "$q"
chmod 000 "$files/locked/facts.bin"
if [ ! -r "$files/locked/facts.bin" ]; then
    expect 0 "$no_rows" "$runs/$files/locked
strikes: facts.bin cannot be read, and counts as empty" ./strikes "$files/locked"
fi

# Usage, and folders that are none.
expect 0 "$usage" '' ./strikes --help
expect 0 "$usage" '' ./strikes -h
expect 2 '' "$usage" ./strikes examples examples
expect 2 '' "$usage" ./strikes --halp
expect 2 '' "$usage" ./strikes -
expect 2 '' "strikes: there is no folder 'no/such/folder'" ./strikes no/such/folder
expect 2 '' "strikes: there is no folder 'README.md'" ./strikes README.md
expect 2 '' "strikes: there is no folder ''" ./strikes ''

# Without the kit's command: commands that the script needs, and no others.
mkdir "$files/commands"
for command in bash cat dirname realpath; do ln -s "$(command -v "$command")" "$files/commands"; done
path=PATH=$PWD/$files/commands
expect 0 "$rows" "$in_examples" env "$path" ./strikes
other= expect 2 '' "strikes: building target/bin/strikes
strikes: the Rattle kit's command rt is not in PATH: see README.md, \"Run it\", and docs/DECISIONS.md, \"Toolchain\"
strikes: there is no program to run" env "$path" ./strikes
other=no/such/program expect 2 '' "strikes: takes the program no/such/program (RANDWYLER_STRIKES)
strikes: there is no program no/such/program
strikes: there is no program to run" ./strikes

# stand_in COMMANDS: a program that does this, in the place of the built one.
stand_in() {
    printf '#!/bin/sh\n%s\n' "$1" >"$files/program"
    chmod +x "$files/program"
    other=$files/program
    runs="strikes: takes the program $other (RANDWYLER_STRIKES)
strikes: running on facts.bin and query.bin of $PWD/$files/sound"
}
stand_in 'echo refused 10 at 3'
expect 1 'refused 10 at 3' "$runs
strikes: refused: this number is not known" ./strikes "$files/sound"
stand_in 'echo rows; echo refused 1 at 0'
expect 0 'rows
refused 1 at 0' "$runs" ./strikes "$files/sound"
stand_in 'echo " refused 1 at 0 "'
expect 0 ' refused 1 at 0 ' "$runs" ./strikes "$files/sound"
stand_in 'exit 7'
expect 7 '' "$runs" ./strikes "$files/sound"
stand_in 'printf "rows\n\n\n"'
expect 0 $'rows\n\n' "$runs" ./strikes "$files/sound"
