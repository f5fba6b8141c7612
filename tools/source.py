"""What the notations share: lines of a text, faults with their places, and numbers."""
import itertools
import re
from typing import NamedTuple, Optional

from values import TRUSTS

# How many characters of a long line are shown on each side of a mark, and how far in.
ASIDE, INDENT = 50, 4


class Place(NamedTuple):
    line: int
    column: int


class Fault(NamedTuple):
    """What is wrong, and the place where, if it has one: lines and columns count from 1. The excerpt is shown below the message."""

    place: Optional[Place]
    message: str
    excerpt: tuple = ()


class Faulty(Exception):
    """A text with faults."""

    def __init__(self, *faults):
        super().__init__(*faults)
        self.faults = faults


def fault(place, message, excerpt=()):
    return Faulty(Fault(place, message, excerpt))


def lines_of(data):
    """The lines of a text with their numbers: UTF-8, with or without a byte order mark, lines ended by LF or CRLF."""
    text = data.decode("utf-8-sig", "surrogateescape")
    return [(number, line.removesuffix("\r")) for number, line in enumerate(text.split("\n"), 1)]


def place_of(data, at):
    """The place of a byte of a text, or of its end, and the line there. A byte that is not UTF-8 is a character of its own."""
    start, end = data.rfind(b"\n", 0, at) + 1, data.find(b"\n", at)
    line = data[start : end if end >= 0 else None].decode("utf-8", "surrogateescape")
    ends = itertools.accumulate(len(character.encode("utf-8", "surrogateescape")) for character in line)
    return Place(data.count(b"\n", 0, at) + 1, 1 + sum(end <= at - start for end in ends)), line


def visible(character):
    """A character in plain ASCII: itself or an escape."""
    if " " <= character <= "~":
        return character
    return f"\\x{ord(character) - 0xDC00:02x}" if "\udc80" <= character <= "\udcff" else ascii(character)[1:-1]


def excerpt(line, column):
    """A line, of a long one what stands near the column, and a mark below the column."""
    at = column - 1
    first, last = max(0, at - ASIDE), at + ASIDE
    before, after = ("".join(map(visible, part)) for part in (line[first:at], line[at:last]))
    before = " " * INDENT + "..." * (first > 0) + before
    return before + after + "..." * (last < len(line)), " " * len(before) + "^"


def shown(word):
    """A word of the text in a message: plain ASCII, and not too long."""
    word = ascii(word)[1:-1]
    return word if len(word) <= 30 else word[:27] + "..."


def number(place, name, word, values):
    """The number that a word is: decimal digits, without a leading zero, in a range."""
    if re.fullmatch("-?[0-9]+", word) is None:
        unit = " of thousandths" if values is TRUSTS else ""
        raise fault(place, f"{name} {shown(word)} is not a whole number{unit}")
    if re.fullmatch("0|-?[1-9][0-9]*", word) is None:
        raise fault(place, f"{name} {shown(word)} has a leading zero, or is -0")
    # The length first: Python does not convert a number of very many digits.
    if len(word) > 8 or int(word) not in values:
        raise fault(place, f"{name} {shown(word)} is not in {values[0]}..{values[-1]}")
    return int(word)
