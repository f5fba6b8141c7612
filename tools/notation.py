"""Queries as text, one node or pattern a line (docs/FORMATS.md, Queries as text): the tree that the display draws."""
import difflib
import re
from dataclasses import dataclass

from query_layout import CONDITIONS, MOST_BYTES, MOST_PATTERNS, NODES, Condition, Node, Slot, clash, node_bytes, write_query
from source import Place, fault, lines_of, number, shown
from values import TERMS, TRUSTS, VARIABLES

# An operand stands so many spaces further in.
STEP = 2
# What binds tighter stands higher.
BINDS = {"or": 1, "and": 2, "not": 3}
VARIABLE_NAMES = [f"?{variable}" for variable in VARIABLES]
FIRST_WORDS = ("pattern", "empty", "join", "left", "union", "filter", "project", "ensure")


# ---- Reading a line


class Line:
    """The words of a line with their places, taken one by one. A comment starts with #."""

    def __init__(self, line, text):
        text = text.split("#")[0].rstrip(" ")
        if "\t" in text:
            raise fault(Place(line, text.index("\t") + 1), "a tab: use spaces")
        self.indent = len(text) - len(text.lstrip(" "))
        self.words = [(Place(line, found.start() + 1), found.group()) for found in re.finditer("[()=<]|[^ ()=<]+", text)]
        self.end = Place(line, len(text) + 1)
        self.taken = 0

    @property
    def place(self):
        """The place of the next word, or of the line's end."""
        return self.words[self.taken][0] if self.taken < len(self.words) else self.end

    @property
    def next(self):
        """The next word, or None at the line's end."""
        return self.words[self.taken][1] if self.taken < len(self.words) else None

    def take(self):
        self.taken += 1
        return self.words[self.taken - 1][1]

    def unexpected(self, expected):
        found = "the line ends" if self.next is None else f"found '{shown(self.next)}'"
        return fault(self.place, f"expected {expected}, but {found}")

    def expect(self, *words):
        for word in words:
            if self.next != word:
                raise self.unexpected(f"'{word}'")
            self.take()

    def is_value(self):
        """Whether the next word is meant as a variable or a number."""
        return self.next is not None and re.match(r"\?|-?[0-9]", self.next) is not None

    def variable(self):
        if self.next not in VARIABLE_NAMES:
            raise self.unexpected(f"a variable, {VARIABLE_NAMES[0]} to {VARIABLE_NAMES[-1]}")
        return VARIABLE_NAMES.index(self.take())

    def term(self):
        return number(self.place, "term", self.take(), TERMS)

    def bound(self):
        if not self.is_value():
            raise self.unexpected("a bound in thousandths")
        return number(self.place, "bound", self.take(), TRUSTS)

    def finish(self):
        if self.next is not None:
            raise self.unexpected("the end of the line")


def read_atom(line):
    """A condition without operands."""
    word = line.next
    if word == "true":
        line.take()
        return Condition("true")
    if word == "bound":
        line.take()
        return Condition("bound", line.variable())
    if word is None or not word.startswith("?"):
        raise line.unexpected("a condition: bound, not, true, a variable or '('")
    variable = line.variable()
    if line.next not in ("=", "<"):
        raise line.unexpected("'=' or '<'")
    if line.take() == "<":
        return Condition("less", variable, line.variable())
    if not line.is_value():
        raise line.unexpected("a variable or a term")
    if line.next.startswith("?"):
        return Condition("same", variable, line.variable())
    return Condition("is-term", variable, line.term())


def in_prefix_order(tree):
    """The parts of a tree: a condition, then its operands."""
    parts, rest = [], [tree]
    while rest:
        part, *operands = rest.pop()
        parts.append(part)
        rest += reversed(operands)
    return parts


def read_condition(line):
    """A condition to the end of the line, in prefix order. Not binds before and, and before or; both group from the left."""
    operands, operators = [], []  # trees; operators with their places, and open parentheses

    def apply():
        kind = operators.pop()[1]
        parts = [operands.pop() for _ in range(CONDITIONS[kind])]
        operands.append((Condition(kind), *reversed(parts)))

    while True:
        while line.next in ("not", "("):
            operators.append((line.place, line.take()))
        operands.append((read_atom(line),))
        while line.next == ")":
            while operators and operators[-1][1] != "(":
                apply()
            if not operators:
                raise fault(line.place, "')' without a '(' before it")
            operators.pop()
            line.take()
        if line.next is None:
            break
        if line.next not in ("and", "or"):
            raise line.unexpected("'and', 'or' or the end of the line")
        while operators and operators[-1][1] != "(" and BINDS[operators[-1][1]] >= BINDS[line.next]:
            apply()
        operators.append((line.place, line.take()))
    while operators:
        if operators[-1][1] == "(":
            raise fault(operators[-1][0], "this '(' is not closed")
        apply()
    return in_prefix_order(operands[0])


def read_pattern(line):
    slots = []
    for name in ("subject", "predicate", "object"):
        if not line.is_value():
            raise line.unexpected(f"the {name} of a pattern, a variable or a term")
        is_variable = line.next.startswith("?")
        slots.append(Slot(is_variable, line.variable() if is_variable else line.term()))
    line.finish()
    return tuple(slots)


def read_node(line):
    """The node of a line, without its patterns and operands, and how many of them may follow."""
    place, first = line.place, line.next
    if line.is_value():
        raise fault(place, "a pattern has to stand below a 'pattern set'")
    if first not in FIRST_WORDS:
        near = difflib.get_close_matches(first.lower(), FIRST_WORDS, 1, 0.7)
        raise fault(place, f"unknown word '{shown(first)}'" + (f": did you mean '{near[0]}'?" if near else ""))
    line.take()
    most = None
    if first == "empty":
        line.expect("pattern", "set")
        node, most = Node("pattern set"), 0
    elif first == "pattern":
        line.expect("set")
        node, most = Node("pattern set"), MOST_PATTERNS
    elif first == "left":
        line.expect("join", "on")
        node = Node("left join", condition=read_condition(line))
    elif first == "filter":
        node = Node("filter", condition=read_condition(line))
    elif first == "project":
        line.expect("trust")
        node = Node("project trust", variable=line.variable())
    elif first == "ensure":
        line.expect("trust")
        lower = line.bound()
        line.expect("to")
        node = Node("ensure trust", bounds=(lower, line.bound()))
    else:
        node = Node(first)
    line.finish()
    return node, NODES[node.kind] if most is None else most


# ---- Reading a query


@dataclass(eq=False)
class Open:
    """A node to which lines further in may belong."""

    node: Node
    place: Place
    indent: int
    least: int  # how many operands, or patterns, it needs
    most: int
    has: int = 0

    @property
    def name(self):
        return "empty pattern set" if self.most == 0 else self.node.kind

    def lacks(self):
        unit = "pattern below it" if self.node.kind == "pattern set" else "operand" if self.least == 1 else "operands"
        hint = " ('empty pattern set' has none)" if self.node.kind == "pattern set" else ""
        return fault(self.place, f"'{self.name}' needs {self.least} {unit}, and has {self.has}{hint}")

    def full(self, place):
        if self.node.kind == "pattern set" and self.most > 0:
            return fault(place, f"more than {self.most} patterns in the pattern set of line {self.place.line}")
        has = "takes nothing below it" if self.most == 0 else f"has {self.most} operand{'s' * (self.most > 1)} already"
        return fault(place, f"'{self.name}' of line {self.place.line} {has}")


def parent_of(opened, line):
    """The open node to which a line belongs. What stands further in is closed."""
    fits = next((node for node in opened if node.indent + STEP == line.indent), None)
    lacking = next((node for node in reversed(opened) if node.has < node.least), None)
    if fits is None:
        expected = [node.indent + STEP for node in opened if node.has < node.most and (lacking is None or node.indent >= lacking.indent)]
        if lacking is None and (not expected or line.indent <= opened[0].indent):
            raise fault(line.place, "the query has ended before this line: a query is one node")
        spaces = f"{line.indent} space{'s' * (line.indent != 1)}"
        raise fault(line.place, f"indented by {spaces}, and not by {' or '.join(map(str, expected))}")
    if lacking is not None and lacking.indent > fits.indent:
        raise lacking.lacks()
    if fits.has == fits.most:
        raise fits.full(line.place)
    del opened[opened.index(fits) + 1 :]
    return fits


def read_notation(data):
    """The nodes of a query that the check passes."""
    nodes, places, opened = [], [], []
    for number_of_line, text in lines_of(data):
        line = Line(number_of_line, text)
        if line.next is None:
            continue
        parent = parent_of(opened, line) if nodes else None
        if parent is not None:
            parent.has += 1
            if parent.node.kind == "pattern set":
                parent.node.patterns.append(read_pattern(line))
                continue
        place = line.place
        node, most = read_node(line)
        nodes.append(node)
        places.append(place)
        opened.append(Open(node, place, line.indent, min(1, most) if node.kind == "pattern set" else most, most))
    if not nodes:
        raise fault(Place(number_of_line, 1), "no query: expected a node")
    for node in reversed(opened):
        if node.has < node.least:
            raise node.lacks()
    check_limits(nodes, places)
    return nodes


def check_limits(nodes, places):
    """What the check would refuse with 5 or 7."""
    size = 0
    for node, place in zip(nodes, places):
        size += len(node_bytes(node))
        if size > MOST_BYTES:
            raise fault(place, f"the query is {len(write_query(nodes))} bytes long: with this node it is over {MOST_BYTES}")
    found = clash(nodes)
    if found is not None:
        project, other = found
        variable = nodes[project].variable
        raise fault(places[project], f"?{variable} of this project trust stands in the {nodes[other].kind} of line "
                    f"{places[other].line} too")


# ---- Writing


def condition_text(condition):
    """The text of a condition: from its last part to the first, so that operands are there when they are needed."""
    texts = []
    for kind, variable, second in reversed(condition):
        operands = [texts.pop() for _ in range(CONDITIONS[kind])]
        if kind == "true":
            texts.append("true")
        elif kind == "bound":
            texts.append(f"bound ?{variable}")
        elif kind == "same":
            texts.append(f"?{variable} = ?{second}")
        elif kind == "is-term":
            texts.append(f"?{variable} = {second}")
        elif kind == "less":
            texts.append(f"?{variable} < ?{second}")
        elif kind == "not":
            texts.append(f"not {operands[0]}")
        else:
            texts.append(f"({operands[0]} {kind} {operands[1]})")
    return texts[0]


def node_text(node):
    """A node's own line."""
    if node.kind == "pattern set":
        return "pattern set" if node.patterns else "empty pattern set"
    if node.kind == "left join":
        return f"left join on {condition_text(node.condition)}"
    if node.kind == "filter":
        return f"filter {condition_text(node.condition)}"
    if node.kind == "project trust":
        return f"project trust ?{node.variable}"
    if node.kind == "ensure trust":
        return f"ensure trust {node.bounds[0]} to {node.bounds[1]}"
    return node.kind


def pattern_text(pattern):
    return " ".join(("?" if slot.is_variable else "") + str(slot.value) for slot in pattern)


def write_notation(nodes):
    lines, missing = [], [1]  # operands that are missing at each depth
    for node in nodes:
        while missing[-1] == 0:
            missing.pop()
        missing[-1] -= 1
        indent = " " * STEP * (len(missing) - 1)
        lines.append(indent + node_text(node))
        lines += [indent + " " * STEP + pattern_text(pattern) for pattern in node.patterns]
        missing.append(NODES[node.kind])
    return "".join(line + "\n" for line in lines)
