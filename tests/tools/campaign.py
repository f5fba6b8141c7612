"""campaign.py DISPLAY COMPARE STRIKES: the campaign's facts and rows are those of its scripts; for each question, as a tree and typed,
`strikes` prints the rows, from files that the tools make, and the comparison finds them equal; its README quotes them. The last line is
'N passed, M failed'."""
import csv
import os
import pathlib
import re
import shutil
import sys
import tempfile

from report import TOP, Report, run

CAMPAIGN = TOP / "examples" / "campaign"
QUESTIONS = ["1-graded", "2-unsampled", "3-differing", "4-by-pan", "5-late", "5-late-naive"]
MOST_FACTS, MOST_ROWS = 65_529, 963
# Typed, 1 is one pattern set: of 223 samples 177 are graded, and all stand there before the floor; there is no join.
OTHER_COUNTS = {"1-graded": "rows 48 peak 177 pairs 0"}


def rows_file(name):
    return (CAMPAIGN / f"{name}.rows").read_text()


def made_again(report, folder):
    """The scripts make the files that stand there."""
    report.equal("make", run(CAMPAIGN / "make"), (0, (CAMPAIGN / "facts.csv").read_text(), ""))
    status, _, messages = run(CAMPAIGN / "answers", folder)
    report.equal("answers", (status, messages), (0, ""))
    for name in QUESTIONS:
        report.equal(f"{name}.rows", (folder / f"{name}.rows").read_text(), rows_file(name))
    for ending in "txt", "query", "rows":
        report.equal(f"the questions, .{ending}", sorted(path.stem for path in CAMPAIGN.glob(f"*.{ending}")), QUESTIONS)


def make_query(report, folder, text):
    """query.bin from a file, or from a text."""
    source = text if isinstance(text, pathlib.Path) else "-"
    data = None if source == text else text.encode()
    report.equal(f"tools/query {source}", run(TOP / "tools" / "query", source, folder / "query.bin", input=data)[0::2], (0, ""))


def typed(report, folder, name, strikes):
    """A question as a text: the bytes are those of the tree, which stand in query.bin, or others with the same rows."""
    tree = (folder / "query.bin").read_bytes()
    status, _, messages = run(TOP / "tools" / "typed", CAMPAIGN / f"{name}.txt", folder / "query.bin")
    report.equal(f"tools/typed {name}.txt", (status, len(messages.splitlines())), (0, 1))
    report.equal(f"{name} makes the same bytes", (folder / "query.bin").read_bytes() == tree, name not in OTHER_COUNTS)
    counts, rows = rows_file(name).split("\n", 1)
    report.equal(f"strikes on {name}, typed", run(strikes, cwd=folder), (0, f"{OTHER_COUNTS.get(name, counts)}\n{rows}", ""))


def answered(report, folder, display, compare, strikes):
    table = folder / "facts.bin"
    report.equal("tools/facts", run(TOP / "tools" / "facts", CAMPAIGN / "facts.csv", table)[0::2], (0, ""))
    report.equal("facts.bin is short enough", 0 < table.stat().st_size <= MOST_FACTS, True)
    for name in QUESTIONS:
        make_query(report, folder, CAMPAIGN / f"{name}.query")
        status, shown, _ = run(display, table, folder / "query.bin")
        report.equal(f"check of {name}", (status, shown.startswith("sound: ")), (0, True))
        expected = rows_file(name)
        report.equal(f"strikes on {name}", run(strikes, cwd=folder), (0, expected, ""))
        typed(report, folder, name, strikes)
        make_query(report, folder, CAMPAIGN / f"{name}.query")
        report.equal(f"{name} has rows", 2 <= len(expected.splitlines()) <= 1 + MOST_ROWS, True)
        counts, *rows = expected.splitlines()
        status, shown_both, _ = run(compare, table, folder / "query.bin")
        above, title, below = shown_both.partition("the rows are equal, in the same order:\n")
        report.equal(f"comparison of {name}", (status, title != "", below.splitlines()), (0, True, rows))
        report.equal(f"counts in the comparison of {name}", above.splitlines()[-1].startswith(counts + "  "), True)
        # The rewriting, copied from the display, lists the same.
        make_query(report, folder, re.split(r"(?m)^rewriting, \d+ bytes:\n", shown)[1])
        rewritten = run(strikes, cwd=folder)[1]
        report.equal(f"strikes on the rewriting of {name}", rewritten.splitlines()[1:], rows)


def all_facts(report, folder, strikes):
    """Every record comes back from strikes as it stands in the CSV."""
    make_query(report, folder, "project trust ?3\n  pattern set\n    ?0 ?1 ?2\n")
    lines = (line for line in (CAMPAIGN / "facts.csv").read_text().splitlines() if line and line[0] != "#")
    facts = [[*map(int, fact[:3]), fact[3]] for fact in list(csv.reader(lines))[1:]]
    expected = [f"{trust} ?0={s} ?1={p} ?2={o} ?3=t{trust}" for s, p, o, trust in sorted(facts, key=lambda fact: fact[:3])]
    report.equal("all facts", run(strikes, cwd=folder)[1].splitlines()[1:], expected)


def naive_push(report):
    """The floor in both operands of a left join lists rows that the question does not have, and the README says which."""
    right, naive = (rows_file(name).splitlines()[1:] for name in ("5-late", "5-late-naive"))
    surplus = [row for row in naive if row not in right]
    report.equal("rows that the naive push loses", [row for row in right if row not in naive], [])
    report.equal("rows that it adds", (len(surplus), surplus[0]), (12, "660 ?0=1002 ?1=3010"))


def blocks(language, text):
    """The blocks of a text that are marked with a language, or with none."""
    return [block for found, block in re.findall(r"(?ms)^```(\w*)\n(.*?)^```$", text) if found == language]


def quoted(report, strikes):
    """The README's commands, run as they stand there, its rows and their numbers."""
    text = (CAMPAIGN / "README.md").read_text()
    commands = re.findall("(?m)^    (.*)$", text)
    report.equal("the README's last command", commands[-1], "./strikes target/campaign")
    shutil.rmtree(TOP / "target" / "campaign", ignore_errors=True)
    environment = {**os.environ, "RANDWYLER_STRIKES": str(strikes)}
    status, said, messages = run("bash", "-euc", "\n".join(commands), cwd=TOP, env=environment)
    report.equal("the README's commands", status, 0)
    running = f"strikes: running on facts.bin and query.txt of {TOP}/target/campaign"
    report.equal("what strikes says", running in messages.splitlines(), True)
    report.equal("what they print", said.endswith(" bytes\n" + rows_file("2-unsampled")), True)
    report.equal("the counts of 1, typed", f"typed they are `{OTHER_COUNTS['1-graded']}`" in text, True)
    sections = re.split(r"(?m)^### \d\. .*\(`(.*)`\)$", text)[1:]
    names, bodies = sections[0::2], sections[1::2]
    report.equal("sections of the README", names, [name for name in QUESTIONS if name != "5-late-naive"])
    for name, body in zip(names, bodies):
        rows = rows_file(name).splitlines()[1:]
        report.equal(f"how many rows the README has of {name}", int(re.search(r"(\d+) rows", body)[1]), len(rows))
        report.equal(f"the text of {name} in the README", blocks("text", body)[0], (CAMPAIGN / f"{name}.txt").read_text())
        block = blocks("", body)[0].splitlines()
        report.equal(f"what the README quotes of {name}", block, rows[: len(block)])
    report.equal("all rows of 2-unsampled", len(blocks("", bodies[1])[0].splitlines()), 8)
    report.equal("the naive text", blocks("text", bodies[4])[1:], [(CAMPAIGN / "5-late-naive.txt").read_text()])
    report.equal("the surplus row", blocks("", bodies[4])[1:], ["660 ?0=1002 ?1=3010\n"])


def main():
    display, compare, strikes = (pathlib.Path(word).resolve() for word in sys.argv[1:])
    report = Report()
    with tempfile.TemporaryDirectory() as name:
        folder = pathlib.Path(name)
        made_again(report, folder)
        answered(report, folder, display, compare, strikes)
        all_facts(report, folder, strikes)
    quoted(report, strikes)
    naive_push(report)
    report.finish()


main()
