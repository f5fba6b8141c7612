# Cases by hand for query.txt in ./strikes, with the program in $program and the archive in $archive: sourced by tests/strikes/run, behind
# script.sh. Temporary files stand in a folder of their own, which must be empty behind each run.
unset other
TMPDIR=$PWD/$files/temporary
RANDWYLER_ARCHIVE=$(realpath "$archive")
export TMPDIR RANDWYLER_ARCHIVE
mkdir "$TMPDIR"

# typed NAME FACTS TEXT: a folder with these facts, in hexadecimal, and this query.txt, in which \n is a line feed.
typed() {
    folder "$1" "$2" -
    printf %b "$3" >"$files/$1/query.txt"
}

# reads FOLDER: what the script says before it reads query.txt there.
reads() {
    echo "strikes: takes the program $program (RANDWYLER_STRIKES)
strikes: running on facts.bin and query.txt of $PWD/$files/$1
strikes: query.bin is not there: reading query.txt
tools/typed: takes the archive $RANDWYLER_ARCHIVE (RANDWYLER_ARCHIVE)"
}

# unchanged FOLDER NAME...: these files, and no others, stand in the folder, and no temporary one is left.
unchanged() {
    local there
    there=$(cd "$files/$1" && echo *)
    if [ "$there" = "${*:2}" ] && [ -z "$(ls -A "$TMPDIR")" ]; then
        passed=$((passed + 1))
    else
        fail "$1 has '$there', expected '${*:2}'; temporary files: '$(ls -A "$TMPDIR")'"
    fi
}

# expect_typed STATUS OUTPUT MESSAGES FOLDER: as expect, of the script on this folder, with its messages behind those of `reads`.
expect_typed() {
    expect "$1" "$2" "$(reads "$4")${3:+$'\n'$3}" ./strikes "$files/$4"
    unchanged "$4" facts.bin query.txt
}

text='{ { ?0 20 21 }\n  { ?0 10 ?1 }\n  ENSURE TRUST (500, 1000) }\n'

# Answers: the same as from the bytes, from any folder.
typed text "$w" "$text"
typed 'a text' "$w" "$text"
expect_typed 0 "$rows" '' text
expect_typed 0 "$rows" '' 'a text'
expect 0 "$rows" "$(reads 'a text')" env -C "$files/a text" "$script" .
unchanged 'a text' facts.bin query.txt

# The repository's own example asks what its bytes ask.
folder example "$w" -
cp examples/query.txt "$files/example"
expect_typed 0 "$rows" '' example

# readme BLOCK: a block of the README's "Run it", by its number.
readme() {
    awk -v wanted="$1" '/^## / { here = $0 == "## Run it" }
        here && /^    / { if (!inside) block++; inside = 1; if (block == wanted) print substr($0, 5); next }
        { inside = 0 }' README.md
}
# Its first ones are the example's text, commands, and what they print when they are run as they stand there.
rm -rf target/first
expect 0 "$(readme 1)" '' cat examples/query.txt
expect 0 "$(readme 3)" "strikes: takes the program $program (RANDWYLER_STRIKES)
strikes: running on facts.bin and query.txt of $PWD/target/first
strikes: query.bin is not there: reading query.txt
tools/typed: takes the archive $RANDWYLER_ARCHIVE (RANDWYLER_ARCHIVE)" bash -euc "$(readme 2)"

# Refused texts: nothing is run. A query that the check would refuse is refused before.
typed fault "$w" '{ ?0 20 21 .\n  OPTIONAL ?0 10 ?1 }\n'
typed nothing "$w" ''
typed clash "$w" '{ ?0 10 ?1 .\n  TRUST AS ?1 }\n'
expect_typed 1 '' "query.txt:2:12: expected '{', but found '?0'
      OPTIONAL ?0 10 ?1 }
               ^" fault
expect_typed 1 '' 'query.txt:1:1: no query: the text is empty' nothing
expect_typed 1 '' 'query.txt:2:12: ?1 of this TRUST AS stands in a triple or another TRUST AS too
      TRUST AS ?1 }
               ^' clash

# Refusals of the program, and facts that are not there.
typed t4 "$r1 $r3 $r2 $r4" "$text"
typed t8 "$w" '{ ?0 ?1 ?2 . ?3 ?4 ?5 . ?6 ?7 ?8 . ?9 ?10 ?11 . ?12 ?13 ?14 }'
expect_typed 1 'refused 4 at 2' 'strikes: refused: facts.bin: record 2, counted from 0, is not above the record before it' t4
expect_typed 1 'refused 8 at 0' 'strikes: refused: the query needs more than the 963 rows of row space that strikes has' t8
typed alone - "$text"
expect 0 "$no_rows" "$(reads alone)
strikes: facts.bin is not there, and counts as empty" ./strikes "$files/alone"
unchanged alone query.txt

# query.bin comes first, even if it is empty or a folder. query.bin as a link to nothing is not there.
typed both "$w" '{ ?0 20 21'
file both/query.bin "$q"
typed both_folder "$w" "$text"
mkdir "$files/both_folder/query.bin"
typed link "$w" "$text"
ln -s absent "$files/link/query.bin"
runs="strikes: takes the program $program (RANDWYLER_STRIKES)
strikes: running on facts.bin and query.bin of $PWD/$files"
expect 0 "$rows" "$runs/both
strikes: query.bin is there: query.txt is not read" ./strikes "$files/both"
unchanged both facts.bin query.bin query.txt
expect 1 'refused 6 at 0' "$runs/both_folder
strikes: query.bin is there: query.txt is not read
strikes: query.bin is a folder, and counts as empty
$no_query" ./strikes "$files/both_folder"
expect 0 "$rows" "$(reads link)" ./strikes "$files/link"
unchanged link facts.bin query.bin query.txt

# A query.txt that cannot be read, an archive that is not there, and a folder for temporary files that is none: nothing is run.
folder no_text "$w" -
mkdir "$files/no_text/query.txt"
said=$(reads no_text)
expect 2 '' "${said%$'\n'*}
tools/typed: cannot read query.txt: Is a directory" ./strikes "$files/no_text"
unchanged no_text facts.bin query.txt
typed locked_text "$w" "$text"
chmod 000 "$files/locked_text/query.txt"
# Rights do not keep root from reading.
if [ ! -r "$files/locked_text/query.txt" ]; then
    said=$(reads locked_text)
    expect 2 '' "${said%$'\n'*}
tools/typed: cannot read query.txt: Permission denied" ./strikes "$files/locked_text"
fi
said=$(reads text)
expect 2 '' "${said%$'\n'*}
tools/typed: takes the archive no/archive.a (RANDWYLER_ARCHIVE)
tools/typed: there is no archive no/archive.a
tools/typed: the program that reads typed queries cannot be built" env RANDWYLER_ARCHIVE=no/archive.a ./strikes "$files/text"
unchanged text facts.bin query.txt
expect 2 '' "${said%$'\n'*}
strikes: cannot make a temporary folder" env TMPDIR=/no/such ./strikes "$files/text"

# Interruption: the script is stopped while the program, a stand-in that says where it runs and then waits, runs. A terminal stops all
# of them at once; a signal to the script alone leaves the program, which is ended here.
# interrupted SIGNAL WHOM: sends it to the script (`script`) or to all (`all`), and looks whether the temporary folder goes.
interrupted() {
    local pid target folder tries=0
    rm -f "$files/waits"
    # A command in the background would ignore an interruption.
    RANDWYLER_STRIKES=$files/program env --default-signal=INT setsid ./strikes "$files/text" >/dev/null 2>&1 &
    pid=$!
    while [ ! -s "$files/waits" ] && [ "$tries" -lt 100 ]; do
        sleep 0.1
        tries=$((tries + 1))
    done
    read -r target folder <"$files/waits" || { fail "the stand-in was not run"; return; }
    [ -f "$folder/query.bin" ] || fail "the stand-in did not run beside query.bin but in $folder"
    if [ "$2" = all ]; then kill "-$1" -- "-$pid"; else kill "-$1" "$pid"; fi
    [ "$2" = all ] || kill "$target"
    wait "$pid" 2>/dev/null && fail "$1 to $2: the script ended with 0"
    unchanged text facts.bin query.txt
}
stand_in "echo \$\$ \"\$PWD\" >'$PWD/$files/waits.part'; mv '$PWD/$files/waits.part' '$PWD/$files/waits'; exec sleep 60"
for signal in INT TERM HUP; do interrupted "$signal" all; done
interrupted TERM script
