"""typed.py PROGRAM: what tools/typed makes of texts, what it says of those with faults, with line and column, and that it writes nothing
then; random faults; and the program of tools/typed.c by itself. The archive is RANDWYLER_ARCHIVE. The last line is 'N passed, M
failed'."""
import collections
import os
import pathlib
import random
import re
import sys
import tempfile

from report import OLD, TOP, Folder, Report, run

from proved_reader import build, read_text
from typed_faults import unreadable

FORMATS = (TOP / "docs" / "FORMATS.md").read_text()
SECTION = re.search(r"(?s)\n## Typed queries.*?(?=\n## )", FORMATS)[0]
TAKES = f"tools/typed: takes the archive {os.environ['RANDWYLER_ARCHIVE']} (RANDWYLER_ARCHIVE)\n"

# What may stand where, by the rules of FORMATS.md.
VARIABLE, TERM, THOUSANDTHS = "a variable ?0 to ?15", "a term 1 to 1048575", "thousandths -1000 to 1000"
SLOT = f"{VARIABLE} or {TERM}"
FIRST = f"{VARIABLE}, {TERM}, '{{', '}}', OPTIONAL, FILTER, TRUST or ENSURE"
BEHIND_TRIPLE = "'{', '}', '.', OPTIONAL, FILTER, TRUST or ENSURE"
BEHIND_ELEMENT = f"{VARIABLE}, {TERM}, '{{', '}}', '.', OPTIONAL, FILTER, TRUST or ENSURE"
BEHIND_GROUP = f"{VARIABLE}, {TERM}, '{{', '}}', '.', UNION, OPTIONAL, FILTER, TRUST or ENSURE"
CONDITION = f"{VARIABLE}, '(', '!' or BOUND"
OVER = "long: this byte is over 4096"

DOCUMENTED = [  # the refused texts of FORMATS.md: text, place, message
    ("", 0, "no query: the text is empty"),
    ("{", 1, f"expected {FIRST}, but the text ends here"),
    ("{{} UNIO", 8, f"expected {BEHIND_GROUP}, but the text ends in 'UNIO'"),
    ("{.}", 1, f"expected {FIRST}, but found '.'"),
    ("{1 2 3..}", 7, f"expected {FIRST}, but found '.'"),
    ("{1 2 3 4", 7, f"expected {BEHIND_TRIPLE}, but found '4'"),
    ("{0 ", 1, f"expected {FIRST}, but found '0'"),
    ("{01", 1, f"expected {FIRST}, but found '01'"),
    ("{1048576 ", 7, f"expected {FIRST}, but found '1048576'"),
    ("{?16}", 3, f"expected {FIRST}, but found '?16'"),
    ("{ENSURE TRUST(1001", 17, f"expected {THOUSANDTHS}, but found '1001'"),
    ("{ENSURE TRUST(-0", 15, f"expected {THOUSANDTHS}, but found '-0'"),
    ("{1 2 3OPTIONAL{}}", 6, f"expected {SLOT}, but found '3OPTIONAL': white space is missing before OPTIONAL"),
    ("{optional{}}", 1, f"expected {FIRST}, but found 'optional': keywords are in capitals"),
    ("{OPTIONAL{}UNION{}}", 11, f"expected {BEHIND_ELEMENT}, but found 'UNION'"),
    ("{FILTER BOUND(?0)}", 8, "expected '(', but found 'BOUND'"),
    ("{FILTER(!?0=?1)}", 9, "expected '(', '!' or BOUND, but found '?0'"),
    ("{FILTER(1=?0)}", 8, f"expected {CONDITION}, but found '1'"),
    ("{} x", 3, "expected the end of the text, but found 'x'"),
]

FAULTS = [  # text, then the message without the file's name and, unless it is none, the line and the mark below it
    # The end of a text stands behind what is typed.
    ("\n \n", "1:1: no query: the text has only white space\n"),
    ("{\n", f"1:2: expected {FIRST}, but the text ends here\n    {{\n     ^\n"),
    ("{ ?0 20\n \n\n", f"1:8: expected {SLOT}, but the text ends here\n    {{ ?0 20\n           ^\n"),
    ("{ ?0\n  20 ?", f"2:7: expected {SLOT}, but the text ends in '?'\n      20 ?\n          ^\n"),
    ("{FILTER(?0<?1|", "1:15: expected ')', '&&' or '||', but the text ends in '|'\n    {FILTER(?0<?1|\n                  ^\n"),
    # Line and column; the mark stands where the text goes wrong, the word may begin before.
    ("{ ?0 20 21 .\n\n  OPTIONAL ?0 10 ?1 }\n", "3:12: expected '{', but found '?0'\n      OPTIONAL ?0 10 ?1 }\n               ^\n"),
    ("{ ?0 20 21 .\n  OPTIONA\n}", f"2:10: expected {FIRST}, but found 'OPTIONA'\n      OPTIONA\n             ^\n"),
    ("{ ?0 20 21 .\n  Filter }", f"2:4: expected {FIRST}, but found 'Filter': keywords are in capitals\n      Filter }}\n       ^\n"),
    ("{} optional", "1:4: expected the end of the text, but found 'optional'\n    {} optional\n       ^\n"),
    ("{}\n{}", "2:1: expected the end of the text, but found '{'\n    {}\n    ^\n"),
    ("SELECT", "1:1: expected '{', but found 'SELECT'\n    SELECT\n    ^\n"),
    ("{TRUSTAS ?0}", f"1:7: expected {FIRST}, but found 'TRUSTAS': white space is missing before AS\n    {{TRUSTAS ?0}}\n          ^\n"),
    ("{TRUST AS ?0FILTER(?0=?1)}", f"1:13: expected {VARIABLE}, but found '?0FILTER': white space is missing before FILTER\n"
     "    {TRUST AS ?0FILTER(?0=?1)}\n                ^\n"),
    ("{1 2 3UNION}", f"1:7: expected {SLOT}, but found '3UNION'\n    {{1 2 3UNION}}\n          ^\n"),
    ("{TRUST AS 7}", f"1:11: expected {VARIABLE}, but found '7'\n    {{TRUST AS 7}}\n              ^\n"),
    ("{?x", f"1:3: expected {FIRST}, but found '?x'\n    {{?x\n      ^\n"),
    ("{?}", f"1:3: expected {FIRST}, but found '?'\n    {{?}}\n      ^\n"),
    ("{?0?1?2x}", f"1:8: expected {SLOT}, but found '?2x'\n    {{?0?1?2x}}\n           ^\n"),
    ("{ENSURE TRUST (500 1000)}", "1:20: expected ',', but found '1000'\n    {ENSURE TRUST (500 1000)}\n                       ^\n"),
    ("{ENSURE TRUST(3-5)}", "1:16: expected ',', but found '-5'\n    {ENSURE TRUST(3-5)}\n                   ^\n"),
    ("{ENSURE TRUST(0.5, 1)}", "1:16: expected ',', but found '.'\n    {ENSURE TRUST(0.5, 1)}\n                   ^\n"),
    ("{FILTER(?0 > ?1)}", "1:12: expected '=' or '<', but found '>'\n    {FILTER(?0 > ?1)}\n               ^\n"),
    ("{FILTER(?0 < 5)}", f"1:14: expected {VARIABLE}, but found '5'\n    {{FILTER(?0 < 5)}}\n                 ^\n"),
    ("{FILTER(?0=1 & BOUND(?0))}", "1:15: expected ')', '&&' or '||', but found '&'\n    {FILTER(?0=1 & BOUND(?0))}\n"
     "                  ^\n"),
    ("{FILTER(?0=1||X)}", f"1:15: expected {CONDITION}, but found 'X'\n    {{FILTER(?0=1||X)}}\n                  ^\n"),
    ("{FILTER(?0=1|X)}", "1:14: expected ')', '&&' or '||', but found '|'\n    {FILTER(?0=1|X)}\n                 ^\n"),
    ("{1 2 " + "9" * 40 + "}", f"1:12: expected {SLOT}, but found '{'9' * 27}...'\n    {{1 2 {'9' * 40}}}\n               ^\n"),
    # Characters that stand in no query. Those behind the place do not shift the mark.
    ("{ ?0 20 21 .\r\n}\r\n", "1:13: a carriage return: lines have to end in line feeds only\n    { ?0 20 21 .\\r\n                ^\n"),
    ("\ufeff{}\n", "1:1: a byte order mark: save the text without it\n    \\ufeff{}\n    ^\n"),
    ("{}\ufeff", "1:3: no query has the character '\\ufeff'\n    {}\\ufeff\n      ^\n"),
    ("{\n\t?0 20\t21 }", "2:1: a tab: use spaces\n    \\t?0 20\\t21 }\n    ^\n"),
    ("{ ?0\t20 21 }", "1:5: a tab: use spaces\n    { ?0\\t20 21 }\n        ^\n"),
    ("# why\n{}", "1:1: a typed query has no comments\n    # why\n    ^\n"),
    ("{ p\u00e4n 10 \u20ac }", f"1:3: expected {FIRST}, but found 'p'\n    {{ p\\xe4n 10 \\u20ac }}\n      ^\n"),
    ("{ \u00e4 }", "1:3: no query has the character '\\xe4'\n    { \\xe4 }\n      ^\n"),
    ("{ \U0001f9ea }", "1:3: no query has the character '\\U0001f9ea'\n    { \\U0001f9ea }\n      ^\n"),
    (b"{ \xe4 }", "1:3: no query has the character '\\xe4'\n    { \\xe4 }\n      ^\n"),
    (b"{\0\x1b[2J\x7f", "1:2: no query has the character '\\x00'\n    {\\x00\\x1b[2J\\x7f\n     ^\n"),
    # Long lines are cut to 50 characters on each side.
    ("{" + 49 * " " + "=" + 49 * "y", f"1:51: expected {FIRST}, but found '='\n    {{{49 * ' '}={49 * 'y'}\n{54 * ' '}^\n"),
    ("{" + 50 * " " + "=" + 50 * "y", f"1:52: expected {FIRST}, but found '='\n    ...{50 * ' '}={49 * 'y'}...\n{57 * ' '}^\n"),
    # The longest text. What could stand there is not said where not every token fits.
    (" " * 4_094 + "{}x", f"1:4097: the text is 4097 bytes {OVER}\n    ...{' ' * 48}{{}}x\n{' ' * 57}^\n"),
    ("{" + "\n" * 4_095 + "}" * 9, f"4096:1: the text is 4105 bytes {OVER}\n    {9 * '}'}\n    ^\n"),
    ("\n" * 4_089 + "\t\u20ac\u20ac!", f"4090:4: the text is 4097 bytes {OVER}\n    \\t\\u20ac\\u20ac!\n                  ^\n"),
    ("\n" * 4_091 + "\t\u20ac\u20ac", f"4092:3: the text is 4098 bytes {OVER}\n    \\t\\u20ac\\u20ac\n            ^\n"),
    (" " * 4_086 + "{x", f"1:4088: expected {FIRST}, but found 'x'\n    ...{' ' * 49}{{x\n{' ' * 57}^\n"),
    (" " * 4_087 + "{x", f"1:4089: no query goes on like this\n    ...{' ' * 49}{{x\n{' ' * 57}^\n"),
    ("\n" * 4_095 + "{", "4096:2: the text ends here, but the query goes on\n    {\n     ^\n"),
    # What the check refuses with 7: the first TRUST AS with such a variable.
    ("{ ?0 10 ?1 .\n  TRUST AS ?1 }\n", "2:12: ?1 of this TRUST AS stands in a triple or another TRUST AS too\n      TRUST AS ?1 }\n"
     "               ^\n"),
    ("{ ?0 1 ?1 TRUST AS ?15 TRUST AS\n?1}", "2:1: ?1 of this TRUST AS stands in a triple or another TRUST AS too\n    ?1}\n    ^\n"),
    ("{ { TRUST AS?2 } TRUST AS ?3 TRUST AS ?2 }", "1:13: ?2 of this TRUST AS stands in a triple or another TRUST AS too\n"
     "    { { TRUST AS?2 } TRUST AS ?3 TRUST AS ?2 }\n                ^\n"),
    # And with 5: 561 triples are 38 sets, joined 37 times.
    ("{" + "1 2 3." * 561 + "}", None),
]
TOO_LONG = "the query is 5124 bytes long: over 5120\n"

QUERIES = [  # text, bytes by hand
    ("{}", "00"),
    (" \n{ }\n ", "00"),
    ("{?0 20 21}", "01 100000 000014 000015"),
    ("{1 1048575?15.?15?14 2.}", "02 000001 0FFFFF 10000F 10000F 10000E 000002"),
    ("{{} UNION{}UNION {}}", "30 30 00 00 00"),
    ("{OPTIONAL{FILTER(BOUND(?3))}}", "20 03 00 00"),
    ("{ENSURE TRUST(1000,-1000)}", "60 7D0000 00"),
    ("{FILTER(?2=?3||!(?4=1048575)&&?5<?6)}", "40 60 1203 50 40 240FFFFF 3506 00"),
    ("{TRUST AS ?15}", "5F 00"),
    ("{" + " " * 4_094 + "}", "00"),
]


DAMAGED = 600
SOUND = [
    "{ ?0 20 21 .\n  OPTIONAL { ?0 30 ?1 FILTER (!(?1 = 7)) }\n  TRUST AS ?2 ENSURE TRUST (500, 1000) }\n",
    "{{1 2 3}UNION{4 5 ?6 . TRUST AS ?7}FILTER(?0=?1&&(?2<?3||!BOUND(?4)))}",
    "{ENSURE TRUST(-5,7)TRUST AS?3 1 2 ?4}",
]
PIECES = "{ } ( ) . , = < ! & && | || UNION OPTIONAL AS TRUST BOUND bound ?0 ?16 ? 0 7 1048576 -5 - x \u00e4 \t \r #".split(" ")


def documented(report, folder):
    """The refused texts and the example of FORMATS.md."""
    listed = {}
    for texts, places in re.findall(r"(?m)^\| ((?:the empty text, )?`.*) \| ([0-9, ]+)(?:: the length)? \|", SECTION):
        found = [""] * texts.startswith("the empty text") + re.findall("`([^`]*)`", texts)
        numbers = [int(place) for place in places.split(", ")]
        listed.update(zip(found, numbers if len(numbers) > 1 else numbers * len(found)))
    report.equal("the refused texts of FORMATS.md", listed, {text: place for text, place, _ in DOCUMENTED})
    for text, place, message in DOCUMENTED:
        mark = f"    {text}\n{' ' * (4 + place)}^\n" if text else ""
        got = folder.run("typed", text.encode(), "in", "out")
        report.equal(f"tools/typed on {text!r}", got, (1, "", f"{TAKES}in:1:{place + 1}: {message}\n{mark}", True, ["in", "out"]))
    text, tree = (re.sub("(?m)^    ", "", block) for block in re.findall(r"\n\n((?:    [^\n]*\n)+)", SECTION))
    got = folder.run("typed", text.encode(), "--tree", "in")
    shown = re.sub("(?m)^    ", "", re.search(r"(?s)\n## Typed queries in files.*?\n\n((?:    [^\n]*\n)+)", FORMATS)[1])
    (folder.path / "my.txt").write_text("{ ?0 20 21 .\n  OPTIONAL ?0 10 ?1 }\n")
    report.equal("the fault of FORMATS.md", run(TOP / "tools" / "typed", "my.txt", "out", cwd=folder.path), (1, "", TAKES + shown))
    (folder.path / "my.txt").unlink()
    report.equal("the example of FORMATS.md", got, (0, re.sub("(?m)^", "  ", tree.rstrip("\n")) + "\n", TAKES, True, ["in", "out"]))


def faults(report, folder):
    for text, message in FAULTS:
        data = text if isinstance(text, bytes) else text.encode()
        expected = f"in: {TOO_LONG}" if message is None else f"in:{message}"
        got = folder.run("typed", data, "in", "out")
        report.equal(f"tools/typed on {text[:200]!r}", got, (1, "", TAKES + expected, True, ["in", "out"]))
    data = b"{" + b"\xff" * 1_000_000
    last = folder.run("typed", data, "in", "out")[2].splitlines()[1:]
    expected = [f"in:1:4097: the text is 1000001 bytes {OVER}", "    ..." + "\\xff" * 100 + "...", " " * 207 + "^"]
    report.equal("a long text of other bytes", last, expected)


def written(report, folder):
    out = folder.path / "out"
    for text, data in QUERIES:
        out.write_bytes(OLD)
        size = len(bytes.fromhex(data))
        got = folder.run("typed", text.encode(), "in", "out")
        report.equal(f"tools/typed on {text[:50]!r}", (*got, out.read_bytes().hex()),
                     (0, f"out: {size} bytes\n", TAKES, False, ["in", "out"], bytes.fromhex(data).hex()))
        # The tree, as tools/query reads it.
        tree = run(TOP / "tools" / "typed", "--tree", "in", cwd=folder.path)[1]
        run(TOP / "tools" / "query", "-", "out", input=tree.encode(), cwd=folder.path)
        report.equal(f"the tree of {text[:50]!r}", out.read_bytes().hex(), bytes.fromhex(data).hex())
    got = folder.run("typed", b"{" + b"1 2 3." * 560 + b"}", "in", "out")
    report.equal("560 triples", (got[0], got[1], out.stat().st_size), (0, "out: 5115 bytes\n", 5_115))
    out.write_bytes(OLD)
    got = folder.run("typed", b"{1 2 ?1 TRUST AS ?1}", "--tree", "in")
    tree = "  project trust ?1\n    pattern set\n      1 2 ?1\n"
    report.equal("--tree draws what refusal 7 is about", got, (0, tree, TAKES, True, ["in", "out"]))
    got = folder.run("typed", b"{" + b"1 2 3." * 561 + b"}", "--tree", "in")
    report.equal("--tree draws what refusal 5 is about", (got[0], len(got[1].splitlines()), got[2]), (0, 561 + 38 + 37, TAKES))
    got = folder.run("typed", b"{x}", "--tree", "in", "out")
    message = f"{TAKES}in:1:2: expected {FIRST}, but found 'x'\n    {{x}}\n     ^\n"
    report.equal("--tree of a fault", got, (1, "", message, True, ["in", "out"]))
    got = folder.run("typed", b"{}", "--tree", "in", "out")
    expected = (0, "out: 1 lines\n", TAKES, False, ["in", "out"], b"  empty pattern set\n")
    report.equal("--tree to a file", (*got, out.read_bytes()), expected)
    out.write_bytes(OLD)
    piped = run(TOP / "tools" / "typed", "-", "-", input=b"{{}UNION{}}")
    report.equal("tools/typed - -", piped, (0, "\x30\0\0", TAKES))
    piped = run(TOP / "tools" / "typed", "-", "-", input=b"{")
    message = f"{TAKES}-:1:2: expected {FIRST}, but the text ends here\n    {{\n     ^\n"
    report.equal("a fault of the standard input", piped, (1, "", message))


def files(report, folder):
    """Files that cannot be used, an archive that is not there, and usage. Nothing is built for what is plain before."""
    there = ["in", "out"]
    for arguments, said, message in [
        (["absent", "out"], "", "cannot read absent: No such file or directory\n"),
        ([".", "out"], "", "cannot read .: Is a directory\n"),
        (["in", "absent/out"], TAKES, "cannot write absent/out: No such file or directory\n"),
        (["in", "."], TAKES, "cannot write .: Not a regular file\n"),
        (["in", "/dev/full"], TAKES, "cannot write /dev/full: Not a regular file\n"),
    ]:
        got = folder.run("typed", b"{}", *arguments)
        report.equal(f"tools/typed {arguments}", got, (2, "", f"{said}tools/typed: {message}", True, there))
    for arguments, reason in [
        (["in"], "OUTPUT is missing"),
        (["in", "in"], "INPUT and OUTPUT are the same file"),
        (["--back", "in", "out"], "unrecognized arguments: --back"),
    ]:
        status, said, messages, same, now = folder.run("typed", b"{}", *arguments)
        expected = (2, "", f"tools/typed: error: {reason}", True, there)
        report.equal(f"tools/typed {arguments}", (status, said, messages.splitlines()[-1], same, now), expected)
    environment = {**os.environ, "RANDWYLER_ARCHIVE": "no/archive.a"}
    message = "takes the archive no/archive.a (RANDWYLER_ARCHIVE)", "there is no archive no/archive.a", \
        "the program that reads typed queries cannot be built"
    got = run(TOP / "tools" / "typed", "in", "out", cwd=folder.path, env=environment)
    report.equal("no archive", got, (2, "", "".join(f"tools/typed: {line}\n" for line in message)))
    # Where the archive cannot be built, one that is there is not taken.
    with tempfile.TemporaryDirectory() as commands:
        (pathlib.Path(commands) / "rt").write_text("#!/bin/sh\necho not proved\nexit 1\n")
        (pathlib.Path(commands) / "rt").chmod(0o755)
        environment = {**os.environ, "PATH": f"{commands}:{os.environ['PATH']}"}
        del environment["RANDWYLER_ARCHIVE"]
        status, said, messages = run(TOP / "tools" / "typed", "in", "out", cwd=folder.path, env=environment)
    report.equal("an archive that is not proved", (status, said, messages.splitlines()[-1]), (2, "", f"tools/typed: {message[-1]}"))
    report.equal("what no archive leaves", ((folder.path / "out").read_bytes(), sorted(os.listdir(folder.path))), (OLD, there))
    for option in "-h", "--help":
        status, said, messages = run(TOP / "tools" / "typed", option)
        report.equal(option, (status, said.splitlines()[0], messages), (0, "usage: tools/typed [-h] [--tree] INPUT [OUTPUT]", ""))


def damage(source, text):
    """A text with one or two faults."""
    data = bytearray(text.encode())
    for _ in range(source.choice([1, 1, 2])):
        at = source.randrange(len(data) + 1)
        kind = source.randrange(4)
        if kind == 0:
            data[at:at] = source.choice(PIECES).encode()
        elif kind == 1:
            del data[at : at + source.randrange(1, 4)]
        elif kind == 2:
            data[at : at + 1] = source.randbytes(1)
        else:
            del data[at:]
    return bytes(data)


def random_faults(report, source):
    """Every fault has the place of the refusal and a message of its own kind, in plain ASCII."""
    seen = collections.Counter()
    build()
    for _ in range(DAMAGED):
        data = damage(source, source.choice(SOUND))
        answer = read_text("query", data)
        if answer.number != 11 or answer.place == len(data):
            seen["other"] += 1
            continue
        (place, message, excerpt), = unreadable(data, answer.place).faults
        before = data[: answer.place].decode().split("\n")
        report.equal(f"the place in {data}", place, (len(before), len(before[-1]) + 1))
        report.equal(f"the mark in {data}", excerpt[1], " " * (4 + len(before[-1])) + "^" if len(before[-1]) <= 50 else " " * 57 + "^")
        report.equal(f"plain messages for {data}", "".join([message, *excerpt]).isprintable() and message.isascii(), True)
        seen[re.match("expected|no query has|a tab|a carriage|a typed|", message)[0]] += 1
    print("messages:", ", ".join(f"{kind or 'none'}: {seen[kind]}" for kind in sorted(seen)))
    report.equal("messages of no kind", seen[""], 0)
    for kind in "expected", "no query has", "other":
        report.equal(f"{kind} comes 20 times", seen[kind] >= 20, True)


def program_alone(report, program):
    """The program in C: what it is not asked for by the tool."""
    for arguments in [], ["help"], ["query", "tree"]:
        report.equal(f"typed {arguments}", run(program, *arguments, input=b"{}"), (2, "", "usage: typed query|tree|next\n"))
    got = run("bash", "-c", '"$0" query >/dev/full', program, input=b"{}")
    report.equal("no room", got, (2, "", "typed: the output cannot be written\n"))
    got = run("bash", "-c", '"$0" query <.', program)
    report.equal("no text", got, (2, "", "typed: the text cannot be read\n"))
    report.equal("a whole query", run(program, "next", input=b"{}"), (0, "end\n", ""))
    report.equal("a start inside a token", run(program, "next", input=b"{OPTION"), (0, "", ""))
    for size in 4_095, 4_096, 4_097, 5_000:
        report.equal(f"what follows {size} bytes", run(program, "next", input=b"{" + b" " * (size - 1)), (0, "", ""))


def main():
    report, program = Report(), pathlib.Path(sys.argv[1]).resolve()
    with tempfile.TemporaryDirectory() as name:
        folder = Folder(name)
        documented(report, folder)
        faults(report, folder)
        files(report, folder)
        written(report, folder)
    random_faults(report, random.Random(6))
    program_alone(report, program)
    report.finish()


main()
