"""round_trips.py DISPLAY: tables and queries from text to bytes and back, against bytes and texts that are made here; what the tools
make passes the proved check, which the display calls, and the display draws the same tree. Bytes with faults are refused as by the check.
The last line is 'N passed, M failed'."""
import collections
import pathlib
import random
import re
import sys
import tempfile

from report import TOP, Report, run

import inputs
from facts_csv import read_csv, write_csv
from notation import read_notation, write_notation
from query_layout import node_bytes, read_query, write_query
from record_layout import read_table, write_table
from source import Faulty
from values import Refused

PAIRS, DAMAGED = 1_000, 1_000

RECORDS = [  # by hand
    ("1,10,11,900", "00 00 10 00 0A 00 00 BF 6C"),
    ("2,20,21,?", "00 00 20 00 14 00 01 50 00"),
    ("1048575,1048575,1048575,1000", "FF FF FF FF FF FF FF FF D0"),
    ("1,1,1,-1000", "00 00 10 00 01 00 00 18 00"),
]

QUERIES = [  # by hand
    ("empty pattern set\n", "00"),
    ("pattern set\n  ?0 20 21\n", "01 10 00 00 00 00 14 00 00 15"),
    ("pattern set\n  1 1048575 ?15\n  ?15 ?14 2\n", "02 00 00 01 0F FF FF 10 00 0F 10 00 0F 10 00 0E 00 00 02"),
    ("join\n  empty pattern set\n  union\n    empty pattern set\n    empty pattern set\n", "10 00 30 00 00"),
    ("ensure trust 500 to 1000\n  empty pattern set\n", "60 5D C7 D0 00"),
    ("ensure trust 1000 to -1000\n  empty pattern set\n", "60 7D 00 00 00"),
    ("project trust ?15\n  empty pattern set\n", "5F 00"),
    ("left join on bound ?3\n  empty pattern set\n  empty pattern set\n", "20 03 00 00"),
    ("filter ?2 = ?3\n  empty pattern set\n", "40 12 03 00"),
    ("filter ?4 = 1048575\n  empty pattern set\n", "40 24 0F FF FF 00"),
    ("filter ?5 < ?6\n  empty pattern set\n", "40 35 06 00"),
    ("filter not true\n  empty pattern set\n", "40 40 70 00"),
    ("filter ((bound ?0 or bound ?1) and not (bound ?2 and true))\n  empty pattern set\n", "40 50 60 00 01 40 50 02 70 00"),
]

LOOSE_CONDITIONS = [  # by hand: what parentheses that are left out mean
    ("bound ?0 or bound ?1 and bound ?2", "(bound ?0 or (bound ?1 and bound ?2))"),
    ("bound ?0 and bound ?1 or bound ?2", "((bound ?0 and bound ?1) or bound ?2)"),
    ("bound ?0 and bound ?1 and bound ?2", "((bound ?0 and bound ?1) and bound ?2)"),
    ("bound ?0 or bound ?1 or bound ?2", "((bound ?0 or bound ?1) or bound ?2)"),
    ("not bound ?0 and bound ?1", "(not bound ?0 and bound ?1)"),
    ("not (bound ?0 and bound ?1)", "not (bound ?0 and bound ?1)"),
    ("not not ?0=5 or ((true))", "(not not ?0 = 5 or true)"),
]

EDGES = [  # queries by hand, each a step beyond what is sound, and the refusal
    ("70 00", (6, 0)),
    ("11 00 00", (6, 0)),
    ("40 80 00", (6, 1)),
    ("40 71 00", (6, 1)),
    ("40 10 10 00", (6, 1)),
    ("40 30 10 00", (6, 1)),
    ("40 20 00 00 00 00", (6, 1)),
    ("40 20 10 00 01 00", (6, 1)),
    ("40 40 12", (6, 2)),
    ("60 7D 10 00 00", (6, 0)),
    ("60 00 07 D1 00", (6, 0)),
    ("60 00 07", (6, 0)),
    ("01 10 00 10 00 00 01 00 00 01", (6, 1)),
    ("01 00 00 00 00 00 01 00 00 01", (6, 1)),
    ("01 00 00 01 20 00 01 00 00 01", (6, 1)),
    ("02 00 00 01 00 00 01 00 00 01 00 00 01", (6, 10)),
    ("10 00", (6, 2)),
    ("00 00", (6, 1)),
]


def by_hand(report):
    header = "subject,predicate,object,trust\n"
    for line, data in RECORDS:
        report.equal(line, write_table(read_csv(f"{header}{line}\n".encode())), bytes.fromhex(data))
        report.equal(data, write_csv(read_table(bytes.fromhex(data))), f"{header}{line}\n")
    for text, data in QUERIES:
        report.equal(text, write_query(read_notation(text.encode())), bytes.fromhex(data))
        report.equal(data, write_notation(read_query(bytes.fromhex(data))), text)
    below = "\n  empty pattern set\n"
    for loose, text in LOOSE_CONDITIONS:
        report.equal(loose, write_notation(read_notation(f"filter {loose}{below}".encode())), f"filter {text}{below}")


def documented(report):
    """The examples of docs/FORMATS.md."""
    text = (TOP / "docs" / "FORMATS.md").read_text()
    csv, tree = (re.search(rf"(?s)\n## {name}.*?\n\n((?:    [^\n]*\n)+)", text)[1] for name in ("Facts as CSV", "Queries as text"))
    csv = re.sub("(?m)^    ", "", csv)
    report.equal("the CSV of FORMATS.md", write_table(read_csv(csv.encode())), bytes.fromhex("".join(data for _, data in RECORDS[:2])))
    query = "60 5D C7 D0  20 50 00 40 20 00 00 07  01 10 00 00 00 00 14 00 00 15  00"
    report.equal("the query of FORMATS.md", write_query(read_notation(tree.encode())), bytes.fromhex(query))


def deep(report):
    """Queries of about 5,120 bytes, as deep as can be."""
    below = "\n  empty pattern set\n"
    filters = "".join("  " * depth + "filter true\n" for depth in range(2_559)) + "  " * 2_559 + "empty pattern set\n"
    ands = "filter " + "(" * 2_558 + "true" + " and true)" * 2_558 + below
    for what, data, text in [
        ("filters", b"\x40\x70" * 2_559 + b"\x00", filters),
        ("nots", b"\x40" * 5_118 + b"\x70\x00", "filter " + "not " * 5_117 + "true" + below),
        ("ands", b"\x40" + b"\x50" * 2_558 + b"\x70" * 2_559 + b"\x00", ands),
    ]:
        report.equal(f"deep {what} as text", write_notation(read_query(data)), text)
        report.equal(f"deep {what}", write_query(read_notation(text.encode())), data)


class Shown:
    """What the display prints for a table and a query."""

    def __init__(self, display, folder, table, query):
        (folder / "facts").write_bytes(table)
        (folder / "query").write_bytes(query)
        self.status, text, _ = run(display, folder / "facts", folder / "query")
        self.first, *lines = text.splitlines(keepends=True)
        trees = re.fullmatch(r"query, \d+ bytes:\n(.*)rewriting, (\d+) bytes:\n(.*)", "".join(lines), re.DOTALL)
        self.query, self.length, self.rewriting = (trees[1], int(trees[2]), trees[3]) if trees else ("", 0, "")
        refused = re.search(r"refused: number (\d+) at [a-z]+ (\d+):", self.first)
        self.refusal = (int(refused[1]), int(refused[2])) if refused else None


def round_trips(report, source, display, folder):
    rewritten = 0
    for case in range(PAIRS):
        facts, table = inputs.table(source)
        data, text, loose = inputs.query(source)
        made = write_table(read_csv(inputs.loose_csv(source, facts).encode()))
        report.equal(f"table {case} from CSV", made, table)
        report.equal(f"table {case} as CSV", write_csv(read_table(table)), inputs.plain_csv(facts))
        report.equal(f"table {case} from its CSV", write_table(read_csv(write_csv(read_table(table)).encode())), table)
        report.equal(f"query {case} from the display's text", write_query(read_notation(text.encode())), data)
        report.equal(f"query {case} from {loose!r}", write_query(read_notation(loose.encode())), data)
        report.equal(f"query {case} as text", write_notation(read_query(data)), text)

        shown = Shown(display, folder, made, data)
        sound = f"sound: facts of {len(facts)} records in {len(table)} bytes, query of {len(data)} bytes\n"
        report.equal(f"check of pair {case}", (shown.status, shown.first), (0, sound))
        report.equal(f"tree of query {case}", re.sub("(?m)^  ", "", shown.query), text)
        report.equal(f"query {case} from its tree", write_query(read_notation(shown.query.encode())), data)
        report.equal(f"rewriting {case} from its tree", len(write_query(read_notation(shown.rewriting.encode()))), shown.length)
        rewritten += re.sub("(?m)^  ", "", shown.rewriting) != text
    report.equal(f"{rewritten} rewritings differ from their queries: over 100", rewritten > 100, True)


def damage(source, data, unit):
    """The bytes with one or two faults."""
    data = bytearray(data)
    for _ in range(source.choice([1, 1, 2])):
        at = source.randrange(len(data) + 1)
        kind = source.randrange(5)
        if kind == 0:
            data[at:at] = source.randbytes(1)
        elif kind == 1:
            del data[at : at + 1]
        elif kind == 2 and len(data) >= 2 * unit:
            start = unit * source.randrange(len(data) // unit - 1)
            data[start : start + 2 * unit] = data[start + unit : start + 2 * unit] + data[start : start + unit]
        elif at < len(data):
            data[at] = data[at] ^ 1 << source.randrange(8) if kind == 3 else source.choice([0, 255])
    return bytes(data)


def refused(reader, data):
    """The refusal of a reader, or None."""
    try:
        reader(data)
        return None
    except Refused as refusal:
        return refusal.number, refusal.place


def clash_place(data):
    """Where the notation says that a variable is used twice, as a place in the bytes; None if it does not say so."""
    nodes = read_query(data)
    try:
        read_notation(write_notation(nodes).encode())
        return None
    except Faulty as faulty:
        line = faulty.faults[0].place.line
        if "of this project trust" not in faulty.faults[0].message:
            return None
    place, drawn = 0, 1
    for node in nodes:
        if drawn == line:
            return place
        place += len(node_bytes(node))
        drawn += 1 + len(node.patterns)
    return None


def refusals(report, source, display, folder):
    """The readers of bytes refuse what the check refuses, with its number and place."""
    seen = collections.Counter()
    for case in range(DAMAGED):
        facts, table = inputs.table(source)
        data = inputs.query(source)[0]
        if case % 2 == 0:
            table = damage(source, table, 9)
            expected = Shown(display, folder, table, data).refusal
            report.equal(f"damaged table {table.hex()}", refused(read_table, table), expected)
        else:
            # Variables that patterns, or another node, may have too; or any fault.
            data = b"\x50\x51\x5a" + data if source.randrange(6) == 0 else damage(source, data, 1)
            expected = Shown(display, folder, table, data).refusal
            if expected is not None and expected[0] == 7:
                report.equal(f"clash {data.hex()}", (refused(read_query, data), clash_place(data)), (None, expected[1]))
            else:
                report.equal(f"damaged query {data.hex()}", refused(read_query, data), expected)
        seen[expected[0] if expected else 0] += 1
    for text, expected in EDGES:
        data = bytes.fromhex(text)
        report.equal(f"check of {text}", Shown(display, folder, b"", data).refusal, expected)
        report.equal(text, refused(read_query, data), expected)
    for what, data, expected in [("65,536 records", bytes(9 * 65_536), (2, 0)), ("too long", bytes(5_121), (5, 0))]:
        table, query = (data, b"\0") if expected[0] == 2 else (b"", data)
        report.equal(f"check of {what}", Shown(display, folder, table, query).refusal, expected)
        report.equal(what, refused(read_table if expected[0] == 2 else read_query, data), expected)
    print("answers of the check:", ", ".join(f"{number}: {seen[number]}" for number in sorted(seen)))
    for number in (0, 1, 3, 4, 6, 7):
        report.equal(f"refusal {number} comes 10 times", seen[number] >= 10, True)


def main():
    display, report, source = pathlib.Path(sys.argv[1]).resolve(), Report(), random.Random(8)
    by_hand(report)
    documented(report)
    deep(report)
    with tempfile.TemporaryDirectory() as name:
        round_trips(report, source, display, pathlib.Path(name))
        refusals(report, source, display, pathlib.Path(name))
    report.finish()


main()
