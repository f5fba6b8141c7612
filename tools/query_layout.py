"""The bytes of a query (docs/FORMATS.md, Query). Kinds, operands and the places of their values are said here only.

A query is a list of its nodes in prefix order, and a condition a list of its parts in prefix order: each is followed by its
operands. So no depth is too deep.
"""
from dataclasses import dataclass, field
from typing import NamedTuple, Optional

from values import TERMS, TRUST_ZERO, TRUSTS, VARIABLES, Refused

# How many nodes, or conditions, follow each kind. A kind's number is its place in the list.
NODES = {"pattern set": 0, "join": 2, "left join": 2, "union": 2, "filter": 1, "project trust": 1, "ensure trust": 1}
CONDITIONS = {"bound": 0, "same": 0, "is-term": 0, "less": 0, "not": 1, "and": 2, "or": 2, "true": 0}
MOST_PATTERNS = 15
MOST_BYTES = 5_120

PATTERN_BYTES = 9
SLOT_BYTES = 3
BOUNDS_BYTES = 3


class Slot(NamedTuple):
    is_variable: bool
    value: int


class Condition(NamedTuple):
    kind: str
    variable: int = 0  # of bound, same, is-term and less
    second: int = 0  # the second variable of same and less, the term of is-term


@dataclass
class Node:
    kind: str
    patterns: list = field(default_factory=list)  # of a pattern set: three slots each
    condition: list = field(default_factory=list)  # of a left join or filter
    variable: int = 0  # of project trust
    bounds: Optional[tuple] = None  # of ensure trust: lower, upper


# ---- Writing


def first_byte(kinds, kind, n):
    return bytes([list(kinds).index(kind) << 4 | n])


def condition_bytes(condition):
    first = first_byte(CONDITIONS, condition.kind, condition.variable)
    if condition.kind in ("same", "less"):
        return first + bytes([condition.second])
    if condition.kind == "is-term":
        return first + condition.second.to_bytes(SLOT_BYTES, "big")
    return first


def pattern_bytes(pattern):
    return b"".join((slot.is_variable << 20 | slot.value).to_bytes(SLOT_BYTES, "big") for slot in pattern)


def node_bytes(node):
    """A node without its operands."""
    n = {"pattern set": len(node.patterns), "project trust": node.variable}.get(node.kind, 0)
    parts = [first_byte(NODES, node.kind, n)]
    parts += map(pattern_bytes, node.patterns)
    parts += map(condition_bytes, node.condition)
    if node.bounds is not None:
        lower, upper = node.bounds
        parts.append((lower + TRUST_ZERO << 12 | upper + TRUST_ZERO).to_bytes(BOUNDS_BYTES, "big"))
    return b"".join(parts)


def write_query(nodes):
    return b"".join(map(node_bytes, nodes))


# ---- Reading


class Reader:
    """Takes parts from the front of a query, and refuses a part with the place of its start."""

    def __init__(self, data):
        self.data = data
        self.at = 0
        self.start = 0

    def begin(self):
        """A node, condition or pattern starts here."""
        self.start = self.at

    def require(self, good, reason):
        if not good:
            raise Refused(6, self.start, reason)

    def take(self, count):
        """The next bytes as a number."""
        self.require(self.at + count <= len(self.data), "the bytes end here")
        self.at += count
        return int.from_bytes(self.data[self.at - count : self.at], "big")

    def head(self, kinds, with_n):
        """The kind and n of a first byte; only the kinds `with_n` may have an n other than 0."""
        self.begin()
        number, n = divmod(self.take(1), 16)
        self.require(number < len(kinds), f"{number} is no kind")
        kind = list(kinds)[number]
        self.require(n == 0 or kind in with_n, f"the low 4 bits of this {kind} are not 0")
        return kind, n

    def slot(self):
        kind, value = divmod(self.take(SLOT_BYTES), 1 << 20)
        self.require(kind < 2, "a slot is neither a term nor a variable")
        self.require(value in (VARIABLES if kind == 1 else TERMS), "a term or variable is out of range")
        return Slot(kind == 1, value)

    def pattern(self):
        self.begin()
        return tuple(self.slot() for _ in range(PATTERN_BYTES // SLOT_BYTES))

    def condition(self):
        """A whole condition, its operands included."""
        parts, missing = [], 1
        while missing > 0:
            kind, n = self.head(CONDITIONS, ("bound", "same", "is-term", "less"))
            second = 0
            if kind in ("same", "less"):
                second = self.take(1)
                self.require(second in VARIABLES, "the second variable is out of range")
            if kind == "is-term":
                second = self.take(SLOT_BYTES)
                self.require(second in TERMS, "the term is out of range")
            parts.append(Condition(kind, n, second))
            missing += CONDITIONS[kind] - 1
        return parts

    def node(self):
        """A node without its operands."""
        kind, n = self.head(NODES, ("pattern set", "project trust"))
        node = Node(kind)
        if kind == "pattern set":
            node.patterns = [self.pattern() for _ in range(n)]
        elif kind == "project trust":
            node.variable = n
        elif kind == "ensure trust":
            bounds = divmod(self.take(BOUNDS_BYTES), 1 << 12)
            node.bounds = tuple(bound - TRUST_ZERO for bound in bounds)
            self.require(all(bound in TRUSTS for bound in node.bounds), "a bound is out of range")
        elif kind in ("left join", "filter"):
            node.condition = self.condition()
        return node


def read_query(data):
    """The nodes of a well-formed query: what the check refuses with 5 or 6 is refused, a variable used twice (7) is not."""
    if len(data) > MOST_BYTES:
        raise Refused(5, 0, f"more than {MOST_BYTES} bytes")
    reader, nodes, missing = Reader(data), [], 1
    while missing > 0:
        nodes.append(reader.node())
        missing += NODES[nodes[-1].kind] - 1
    reader.begin()
    reader.require(reader.at == len(data), "the query has ended before this byte")
    return nodes


# ---- Refusal 7


def clash(nodes):
    """The first project trust whose variable stands in a pattern or in another project trust, and the first node where it
    does, both counted from 0; None if there is none."""
    uses = {}
    for place, node in enumerate(nodes):
        slots = [slot for pattern in node.patterns for slot in pattern if slot.is_variable]
        for variable in {slot.value for slot in slots} | ({node.variable} if node.kind == "project trust" else set()):
            uses.setdefault(variable, []).append(place)
    for place, node in enumerate(nodes):
        if node.kind == "project trust":
            others = [other for other in uses[node.variable] if other != place]
            if others:
                return place, others[0]
    return None
