"""Inputs with faults: what the tools say, with line and column, and that they write nothing. The last line is 'N passed, M failed'."""
import os
import stat
import tempfile

from report import OLD, TOP, Folder, Report, run

HEADER = "subject,predicate,object,trust\n"
SIXTEEN = "".join(f"  ?0 1 {n}\n" for n in range(1, 17))
BELOW = "  empty pattern set\n"
NO_HEADER = "the first line has to be subject,predicate,object,trust"


def separated_by(plural):
    return f"its fields are separated by {plural}, not commas"


CSV = [  # text, messages without the file's name
    ("", [f"1:1: {NO_HEADER}, and there is none"]),
    ("\n# only a comment\n", [f"3:1: {NO_HEADER}, and there is none"]),
    ("1,10,11,900\n", [f"1:1: {NO_HEADER}, and is 1,10,11,900"]),
    ("subject,predicate,Object,trust\n", [f"1:19: {NO_HEADER}, and is subject,predicate,Object,trust"]),
    ("subject,predicate,object\n1,2,3\n", [f"1:19: {NO_HEADER}, and is subject,predicate,object"]),
    ("subject,predicate,object,trust,hour\n", [f"1:32: {NO_HEADER}, and is subject,predicate,object,tr..."]),
    ("# why\n\n  p\u00e4n | strike\r\n", [f"3:3: {NO_HEADER}, and is p\\xe4n | strike: {separated_by('vertical bars')}"]),
    # Other separators; one beside a comma is part of a field.
    ("subject;predicate;object;trust\n", [f"1:1: {NO_HEADER}, and is subject;predicate;object;trust: {separated_by('semicolons')}"]),
    (
        "subject\tpredicate\tobject\ttrust\n",
        [f"1:1: {NO_HEADER}, and is subject\\tpredicate\\tobject\\...: {separated_by('tabs')}"],
    ),
    ("subject|predicate|object|trust\n", [f"1:1: {NO_HEADER}, and is subject|predicate|object|trust: {separated_by('vertical bars')}"]),
    ("1;10;11;900\n", [f"1:1: {NO_HEADER}, and is 1;10;11;900: {separated_by('semicolons')}"]),
    ("subject,predicate,object;trust\n", [f"1:19: {NO_HEADER}, and is subject,predicate,object;trust"]),
    ("subject predicate object trust\n", [f"1:1: {NO_HEADER}, and is subject predicate object trust"]),
    (HEADER + "1,10,11,1200\n", ["2:9: trust 1200 is not in -1000..1000"]),
    (HEADER + "1,10,11,-1001\n", ["2:9: trust -1001 is not in -1000..1000"]),
    (HEADER + "1,10,11,0.9\n", ["2:9: trust 0.9 is not a whole number of thousandths"]),
    (HEADER + "1,10,11,+5\n", ["2:9: trust +5 is not a whole number of thousandths"]),
    (HEADER + "1,10,11,5 # why\n", ["2:9: trust 5 # why is not a whole number of thousandths"]),
    (HEADER + "1,10,11,-0\n", ["2:9: trust -0 has a leading zero, or is -0"]),
    (HEADER + "1,10,11,\u22125\n", ["2:9: trust \\u22125 is not a whole number of thousandths"]),
    (HEADER + "0,10,11,\n", ["2:1: subject 0 is not in 1..1048575"]),
    (HEADER + "1,1048576,11,\n", ["2:3: predicate 1048576 is not in 1..1048575"]),
    (HEADER + "1,10,-1,\n", ["2:6: object -1 is not in 1..1048575"]),
    (HEADER + "1,10," + "9" * 5_000 + ",\n", ["2:6: object 999999999999999999999999999... is not in 1..1048575"]),
    (HEADER + "1,10,007,\n", ["2:6: object 007 has a leading zero, or is -0"]),
    (HEADER + "1,10,?,\n", ["2:6: object ? is not a whole number"]),
    (HEADER + '1,10,"1"1,\n', ['2:6: object "1"1 is not a whole number']),
    (HEADER + "1,10,1 1,\n", ["2:6: object 1 1 is not a whole number"]),
    (HEADER + "1,10,\u0663,\n", ["2:6: object \\u0663 is not a whole number"]),
    (HEADER + "1,10,11\n", ["2:6: 3 fields, and not 4: subject,predicate,object,trust"]),
    (HEADER + "1,10,11,900,5\n", ["2:13: 5 fields, and not 4: subject,predicate,object,trust"]),
    (HEADER + ",,,\n", ["2:1: no subject", "2:2: no predicate", "2:3: no object"]),
    # Every fault, with its line and column as they are in the file.
    (
        HEADER + "\n  x , 10,11,900\r\n# 5,5\n1,10,11,2000\r\n",
        ["3:3: subject x is not a whole number", "5:9: trust 2000 is not in -1000..1000"],
    ),
    (HEADER + "1,10,11,900\n2,2,2,\n\n 1, 10, 11, ?\n", ["5:2: the record 1,10,11 stands in line 2 already"]),
    (HEADER + "1,1,x,\n" * 22, [f"{line}:5: object x is not a whole number" for line in range(2, 22)] + ["2 more faults"]),
    (HEADER + "".join(f"1,1,{n},\n" for n in range(1, 65_537)), ["65537:1: more than 65535 records"]),
]

QUERIES = [  # text, message without the file's name
    ("", "1:1: no query: expected a node"),
    ("# nothing\n\n", "3:1: no query: expected a node"),
    # Words.
    ("jion\n", "1:1: unknown word 'jion': did you mean 'join'?"),
    ("FILTER true\n", "1:1: unknown word 'FILTER': did you mean 'filter'?"),
    ("select\n", "1:1: unknown word 'select'"),
    ("query, 25 bytes:\n  join\n", "1:1: unknown word 'query,'"),
    ("p\u00e4ttern set\n", "1:1: unknown word 'p\\xe4ttern': did you mean 'pattern'?"),
    ("pattern\n", "1:8: expected 'set', but the line ends"),
    ("empty set\n", "1:7: expected 'pattern', but found 'set'"),
    ("join on true\n", "1:6: expected the end of the line, but found 'on'"),
    ("left join\n", "1:10: expected 'on', but the line ends"),
    ("left join true\n", "1:11: expected 'on', but found 'true'"),
    ("project trust\n", "1:14: expected a variable, ?0 to ?15, but the line ends"),
    ("ensure trust\n", "1:13: expected a bound in thousandths, but the line ends"),
    ("ensure trust 500 1000\n", "1:18: expected 'to', but found '1000'"),
    ("ensure trust 500 to\n", "1:20: expected a bound in thousandths, but the line ends"),
    # Values.
    ("project trust 2\n" + BELOW, "1:15: expected a variable, ?0 to ?15, but found '2'"),
    ("project trust ?16\n" + BELOW, "1:15: expected a variable, ?0 to ?15, but found '?16'"),
    ("ensure trust -1001 to 0\n" + BELOW, "1:14: bound -1001 is not in -1000..1000"),
    ("ensure trust 0 to 1001\n" + BELOW, "1:19: bound 1001 is not in -1000..1000"),
    ("ensure trust 0.5 to 1\n" + BELOW, "1:14: bound 0.5 is not a whole number of thousandths"),
    ("pattern set\n  ?0 20 ?16\n", "2:9: expected a variable, ?0 to ?15, but found '?16'"),
    ("pattern set\n  ?00 20 21\n", "2:3: expected a variable, ?0 to ?15, but found '?00'"),
    ("pattern set\n  ?0 0 21\n", "2:6: term 0 is not in 1..1048575"),
    ("pattern set\n  ?0 20 1048576\n", "2:9: term 1048576 is not in 1..1048575"),
    ("pattern set\n  ?0 020 21\n", "2:6: term 020 has a leading zero, or is -0"),
    ("pattern set\n  ?0 20 " + "9" * 5_000 + "\n", "2:9: term 999999999999999999999999999... is not in 1..1048575"),
    # Patterns.
    ("pattern set\n  ?0 20\n", "2:8: expected the object of a pattern, a variable or a term, but the line ends"),
    ("pattern set\n  ?0 20 21 22\n", "2:12: expected the end of the line, but found '22'"),
    ("pattern set\n  ?0 has 21\n", "2:6: expected the predicate of a pattern, a variable or a term, but found 'has'"),
    ("pattern set\n  join\n", "2:3: expected the subject of a pattern, a variable or a term, but found 'join'"),
    ("pattern set\n" + SIXTEEN, "17:3: more than 15 patterns in the pattern set of line 1"),
    ("filter true\n  ?0 20 21\n", "2:3: a pattern has to stand below a 'pattern set'"),
    ("filter true\n  pattern set\n", "2:3: 'pattern set' needs 1 pattern below it, and has 0 ('empty pattern set' has none)"),
    # Operands.
    ("join\n" + BELOW, "1:1: 'join' needs 2 operands, and has 1"),
    ("join\n  filter true\n" + BELOW, "2:3: 'filter' needs 1 operand, and has 0"),
    ("join\n" + 3 * BELOW, "4:3: 'join' of line 1 has 2 operands already"),
    ("filter true\n" + 2 * BELOW, "3:3: 'filter' of line 1 has 1 operand already"),
    ("empty pattern set\n  ?0 1 2\n", "2:3: 'empty pattern set' of line 1 takes nothing below it"),
    ("join\n" + 2 * BELOW + "join\n", "4:1: the query has ended before this line: a query is one node"),
    # Indentation.
    ("join\nempty pattern set\n", "2:1: indented by 0 spaces, and not by 2"),
    ("join\n" + BELOW + "   empty pattern set\n", "3:4: indented by 3 spaces, and not by 2"),
    ("filter true\n    empty pattern set\n", "2:5: indented by 4 spaces, and not by 2"),
    ("filter true\n  join\n    pattern set\n      ?0 1 2\n union\n", "5:2: indented by 1 space, and not by 4 or 6"),
    ("pattern set\n  ?0 1 2\n    ?0 1 3\n", "3:5: indented by 4 spaces, and not by 2"),
    ("filter true\n\tempty pattern set\n", "2:1: a tab: use spaces"),
    # Conditions.
    ("filter\n", "1:7: expected a condition: bound, not, true, a variable or '(', but the line ends"),
    ("filter (bound ?0 and\n", "1:21: expected a condition: bound, not, true, a variable or '(', but the line ends"),
    ("filter 21 = ?0\n", "1:8: expected a condition: bound, not, true, a variable or '(', but found '21'"),
    ("filter ?0 != 21\n", "1:11: expected '=' or '<', but found '!'"),
    ("filter ?0 > ?1\n", "1:11: expected '=' or '<', but found '>'"),
    ("filter ?0 =\n", "1:12: expected a variable or a term, but the line ends"),
    ("filter ?0 = 0\n", "1:13: term 0 is not in 1..1048575"),
    ("filter ?0 < 500\n", "1:13: expected a variable, ?0 to ?15, but found '500'"),
    ("filter bound 0\n", "1:14: expected a variable, ?0 to ?15, but found '0'"),
    ("filter (bound ?0 or true\n" + BELOW, "1:8: this '(' is not closed"),
    ("filter bound ?0) or true\n" + BELOW, "1:16: ')' without a '(' before it"),
    ("filter true false\n", "1:13: expected 'and', 'or' or the end of the line, but found 'false'"),
    # What the check would refuse with 7 and with 5.
    (
        "project trust ?1\n  pattern set\n    ?0 1 ?1\n",
        "1:1: ?1 of this project trust stands in the pattern set of line 2 too",
    ),
    (
        "join\n  pattern set\n    ?0 1 ?1\n  project trust ?0\n    empty pattern set\n",
        "4:3: ?0 of this project trust stands in the pattern set of line 2 too",
    ),
    (
        "project trust ?1\n  project trust ?1\n    empty pattern set\n",
        "1:1: ?1 of this project trust stands in the project trust of line 2 too",
    ),
    (
        "filter " + "not " * 5_117 + "not true\n" + BELOW,
        "2:3: the query is 5121 bytes long: with this node it is over 5120",
    ),
]

def faults(report, folder):
    for tool, cases in ("facts", CSV), ("query", [(text, [message]) for text, message in QUERIES]):
        for text, messages in cases:
            expected = "".join(f"in: {line}\n" if line.endswith("more faults") else f"in:{line}\n" for line in messages)
            got = folder.run(tool, text.encode(), "in", "out")
            report.equal(f"tools/{tool} on {text[:200]!r}", got, (1, "", expected, True, ["in", "out"]))


def bytes_with_faults(report, folder):
    for tool, data, message in [
        ("facts", bytes(10), "refused 1 at 0: the length is not a multiple of 9"),
        ("facts", bytes(9), "refused 3 at 0: a term or the trust of this record has no valid value"),
        ("facts", 2 * bytes.fromhex("00 00 10 00 01 00 00 18 00"), "refused 4 at 1: this record is not above the one before it"),
        ("query", b"", "refused 6 at 0: the bytes end here"),
        ("query", b"\x70\0", "refused 6 at 0: 7 is no kind"),
        ("query", bytes(2), "refused 6 at 1: the query has ended before this byte"),
        ("query", bytes(5_121), "refused 5 at 0: more than 5120 bytes"),
    ]:
        got = folder.run(tool, data, "--back", "in", "out")
        report.equal(f"tools/{tool} --back on {data[:20].hex()}", got, (1, "", f"in: {message}\n", True, ["in", "out"]))


def files(report, folder):
    """Files that cannot be used, and usage."""
    data = (HEADER + "1,10,11,900\n").encode()
    os.mkfifo(folder.path / "pipe")
    there = ["in", "out", "pipe"]
    for arguments, message in [
        (["absent", "out"], "tools/facts: cannot read absent: No such file or directory\n"),
        ([".", "out"], "tools/facts: cannot read .: Is a directory\n"),
        (["in", "absent/out"], "tools/facts: cannot write absent/out: No such file or directory\n"),
        (["in", "."], "tools/facts: cannot write .: Not a regular file\n"),
        (["in", "pipe"], "tools/facts: cannot write pipe: Not a regular file\n"),
    ]:
        report.equal(f"tools/facts {arguments}", folder.run("facts", data, *arguments), (2, "", message, True, there))
    for arguments, reason in (["in"], "OUTPUT is missing"), (["in", "in"], "INPUT and OUTPUT are the same file"):
        status, said, messages, same, now = folder.run("facts", data, *arguments)
        message = messages.splitlines()[-1]
        expected = (2, "", f"tools/facts: error: {reason}", True, there)
        report.equal(f"tools/facts {arguments}", (status, said, message, same, now), expected)
    report.equal("the pipe is still one", (folder.path / "pipe").is_fifo(), True)
    (folder.path / "pipe").unlink()
    # A write that fails half-way leaves the older output, and nothing else.
    (folder.path / "in").write_bytes(data)
    got = run("bash", "-c", 'ulimit -f 0; exec "$0" in out', TOP / "tools" / "facts", cwd=folder.path)
    report.equal("no room", got, (2, "", "tools/facts: cannot write out: File too large\n"))
    report.equal("what no room leaves", ((folder.path / "out").read_bytes(), sorted(os.listdir(folder.path))), (OLD, ["in", "out"]))


def written(report, folder):
    """A sound input replaces the output as a whole, under its own name and with the usual rights."""
    record = bytes.fromhex("00 00 10 00 0A 00 00 BF 6C")
    csv = (HEADER + "1,10,11,900\n").encode()
    mask = os.umask(0)
    os.umask(mask)
    got = folder.run("facts", csv, "in", "out")
    report.equal("tools/facts", got, (0, "out: 1 records, 9 bytes\n", "", False, ["in", "out"]))
    out = folder.path / "out"
    report.equal("the table", (out.read_bytes(), stat.S_IMODE(out.stat().st_mode)), (record, 0o666 & ~mask))
    (folder.path / "link").symlink_to("out")
    out.write_bytes(OLD)
    folder.run("facts", csv, "in", "link")
    report.equal("a link to the table", ((folder.path / "link").is_symlink(), out.read_bytes()), (True, record))
    (folder.path / "link").unlink()
    out.write_bytes(OLD)
    got = folder.run("facts", record, "--back", "in")
    report.equal("tools/facts --back", got, (0, csv.decode(), "", True, ["in", "out"]))
    got = folder.run("query", bytes.fromhex("51 01 10 00 00 00 00 14 10 00 01"), "--back", "in")
    text = "project trust ?1\n  pattern set\n    ?0 20 ?1\n"
    report.equal("tools/query --back draws what refusal 7 is about", got, (0, text, "", True, ["in", "out"]))
    got = folder.run("query", b"empty pattern set\n", "in", "out")
    report.equal("tools/query", (*got, out.read_bytes()), (0, "out: 1 bytes\n", "", False, ["in", "out"], b"\0"))
    piped = run(TOP / "tools" / "query", "-", "-", input=b"union\n" + 2 * BELOW.encode())
    report.equal("tools/query - -", piped, (0, "\x30\0\0", ""))
    many = HEADER + "".join(f"1,1,{n},\n" for n in range(1, 7_283))
    out.write_bytes(OLD)
    said = folder.run("facts", many.encode(), "in", "out")[1]
    report.equal("a table that strikes cannot read", said, "out: 7282 records, 65538 bytes (strikes reads at most 7281 records)\n")
    report.equal("--help", run(TOP / "tools" / "facts", "--help")[0], 0)


def main():
    report = Report()
    with tempfile.TemporaryDirectory() as name:
        folder = Folder(name)
        faults(report, folder)
        bytes_with_faults(report, folder)
        files(report, folder)
        written(report, folder)
    report.finish()


main()
