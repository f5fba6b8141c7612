"""Random tables and queries, each as bytes and as text. Written from docs/FORMATS.md and without the modules of tools/, so that
what the tools make can be compared with it."""
import random

SET_VARIABLES = range(10)  # in patterns
PROJECTED = range(10, 16)  # by project trust, each at most once in a query


def bits(value, width):
    return format(value, f"0{width}b")


def from_bits(text):
    return int(text, 2).to_bytes(len(text) // 8, "big")


def term(source):
    """A small term, so that some are the same, or any; often one of the ends."""
    return source.choice([source.randint(1, 4), source.randint(1, 1_048_575), 1, 1_048_575])


def a_trust(source):
    return source.choice([None, -1000, -1, 0, 1, 1000, source.randint(-1000, 1000), source.randint(-1000, 1000)])


# ---- Tables


def table(source):
    """Triples with their trusts, rising, and their bytes."""
    count = source.choice([0, 1, source.randint(2, 12), source.randint(2, 60)])
    facts = sorted({tuple(term(source) for _ in range(3)): a_trust(source) for _ in range(count)}.items())
    data = b""
    for triple, trust in facts:
        known = bits(0, 12) if trust is None else "1" + bits(trust + 1000, 11)
        data += from_bits("".join(bits(value, 20) for value in triple) + known)
    return facts, data


def plain_csv(facts):
    lines = ["subject,predicate,object,trust"]
    lines += [",".join(map(str, triple)) + "," + ("?" if trust is None else str(trust)) for triple, trust in facts]
    return "".join(line + "\n" for line in lines)


def loose_csv(source, facts):
    """The same records as a person or a spreadsheet may write them."""
    end = source.choice(["\n", "\r\n"])

    def between():
        return source.choice(["", "", "", "", end, " \t" + end, "# a comment, with commas" + end, "  #" + end])

    def written(field):
        field = source.choice([field, field, field, f'"{field}"', f'" {field} "'])
        return source.choice(["", "", " ", "\t"]) + field + source.choice(["", "", "  "])

    text = source.choice(["", "\ufeff"]) + between()
    text += ",".join(written(name) for name in ("subject", "predicate", "object", "trust"))
    for triple, trust in source.sample(facts, len(facts)):
        fields = [*map(str, triple), source.choice(["", "?"]) if trust is None else str(trust)]
        text += end + between() + ",".join(map(written, fields))
    return text + source.choice(["", end])


# ---- Conditions: bytes, the display's text, a text with as few parentheses as can be, and how tightly that text binds

OR, AND, NOT, ATOM = range(4)


def enclosed(text, binds, least):
    return text if binds >= least else f"({text})"


def condition(source, depth):
    kind = source.choice([0, 1, 2, 3, 7] if depth == 0 else [0, 1, 2, 3, 4, 4, 5, 5, 6, 6, 7])
    v, w, value = source.randrange(16), source.randrange(16), term(source)
    if kind == 0:
        return from_bits(bits(0, 4) + bits(v, 4)), f"bound ?{v}", f"bound ?{v}", ATOM
    if kind in (1, 3):
        text = f"?{v} {'=' if kind == 1 else '<'} ?{w}"
        return from_bits(bits(kind, 4) + bits(v, 4) + bits(w, 8)), text, text.replace(" ", source.choice(["", " "])), ATOM
    if kind == 2:
        text = f"?{v} = {value}"
        return from_bits(bits(2, 4) + bits(v, 4) + bits(value, 24)), text, text.replace(" ", source.choice(["", " "])), ATOM
    if kind == 7:
        return from_bits("01110000"), "true", source.choice(["true", "(true)", "( true )"]), ATOM
    data, full, short, binds = condition(source, depth - 1)
    if kind == 4:
        return from_bits("01000000") + data, f"not {full}", f"not {enclosed(short, binds, NOT)}", NOT
    right_data, right_full, right_short, right_binds = condition(source, depth - 1)
    word, level = ("and", AND) if kind == 5 else ("or", OR)
    text = f"{enclosed(short, binds, level)} {word} {enclosed(right_short, right_binds, level + 1)}"
    return from_bits(bits(kind, 4) + "0000") + data + right_data, f"({full} {word} {right_full})", text, level


# ---- Queries: bytes, the lines that the display draws, and other lines for the same


def slot(source):
    variable, value = source.choice(SET_VARIABLES), term(source)
    return source.choice([("0001" + bits(variable, 20), f"?{variable}"), (bits(value, 24), str(value))])


def pattern(source):
    slots = [slot(source) for _ in range(3)]
    return from_bits("".join(data for data, _ in slots)), " ".join(text for _, text in slots)


def inward(lines):
    return ["  " + line for line in lines]


def node(source, depth, projected):
    kind = 0 if depth == 0 else source.choice([0, 1, 2, 3, 4, 5, 6])
    if kind == 5 and not projected:
        kind = 6
    if kind == 0:
        patterns = [pattern(source) for _ in range(source.choice([0, 1, 1, 2, 3, 15]))]
        lines = ["pattern set" if patterns else "empty pattern set", *inward(text for _, text in patterns)]
        return from_bits("0000" + bits(len(patterns), 4)) + b"".join(data for data, _ in patterns), lines, lines
    own, full, short = from_bits(bits(kind, 4) + "0000"), {1: "join", 3: "union"}.get(kind, ""), None
    if kind in (2, 4):
        data, full, short, _ = condition(source, source.randint(0, 4))
        head = "left join on " if kind == 2 else "filter "
        own, full, short = own + data, head + full, head + short
    if kind == 5:
        variable = projected.pop()
        own, full = from_bits("0101" + bits(variable, 4)), f"project trust ?{variable}"
    if kind == 6:
        lower, upper = (source.choice([-1000, 1000, 0, source.randint(-1000, 1000)]) for _ in range(2))
        own, full = own + from_bits(bits(lower + 1000, 12) + bits(upper + 1000, 12)), f"ensure trust {lower} to {upper}"
    lines, others = [full], [short or full]
    for _ in range(2 if kind in (1, 2, 3) else 1):
        data, below, others_below = node(source, depth - 1, projected)
        own += data
        lines += inward(below)
        others += inward(others_below)
    return own, lines, others


def query(source):
    """A query of at most 1,024 bytes, so that it can be rewritten: its bytes, the display's text, and a looser one."""
    while True:
        data, lines, others = node(source, source.randint(0, 5), random.Random(source.random()).sample(PROJECTED, 6))
        if len(data) <= 1_024:
            break
    margin = " " * source.choice([0, 0, 2, 3])
    end = source.choice(["\n", "\r\n"])
    loose = source.choice(["", "\ufeff"])
    for line in others:
        loose += source.choice(["", "", "", end, "# a comment: join" + end, "   " + end])
        loose += margin + line + source.choice(["", "", "  ", " # why", "# (why"]) + end
    return data, "".join(line + "\n" for line in lines), loose
