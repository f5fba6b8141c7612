"""Why a typed query is refused, with its place in the text. What could stand there is asked of the proved reader: no rule of the grammar
is said here again."""
import re

from proved_reader import tokens_after
from query_layout import MOST_BYTES
from source import excerpt, fault, place_of, shown, visible
from values import TERMS, TRUSTS, VARIABLES

MOST_TEXT_BYTES = 4_096
# What the longest token takes, with white space before it.
TOKEN_BYTES = len(" OPTIONAL")
MARK = "\ufeff".encode()
WHITE = b" \n"
# What stands before the letters and digits of a word, and half of a token of two bytes.
SIGNS, HALVES = b"?-", b"&|"
WORD = re.compile(rb"[?-]?[A-Za-z0-9]+|&&?|\|\|?|.", re.DOTALL)
# How the tokens are called that stand for others.
NAMES = {
    "?15": f"a variable ?{VARIABLES[0]} to ?{VARIABLES[-1]}",
    "1048575": f"a term {TERMS[0]} to {TERMS[-1]}",
    "-1000": f"thousandths {TRUSTS[0]} to {TRUSTS[-1]}",
    "end": "the end of the text",
}
# Characters that people type, and that stand in no query.
STRANGE = {
    b"\r": "a carriage return: lines have to end in line feeds only",
    b"\t": "a tab: use spaces",
    b"#": "a typed query has no comments",
}


def expected(tokens):
    *names, last = [NAMES.get(token, token if token.isalpha() else f"'{token}'") for token in tokens]
    return f"expected {', '.join(names)} or {last}" if names else f"expected {last}"


def word_start(data, at, signs):
    """Where the word starts that goes up to a place: letters and digits, and one of the signs before them."""
    while data[:at][-1:].isalnum():
        at -= 1
    return at - 1 if at > 0 and data[at - 1] in signs else at


def token_at(data, place):
    """Where the token starts that is at fault, and the tokens that could stand there; none where not every token would fit."""
    if place + TOKEN_BYTES > MOST_TEXT_BYTES:
        return place, []
    start = word_start(data, place, SIGNS) if data[place : place + 1].isalnum() else place
    tokens = tokens_after(data[:start])
    if not tokens:
        start = word_start(data, place, SIGNS + HALVES)
        tokens = tokens_after(data[:start])
    return start, tokens


def hint(data, start, place, tokens):
    """What is to be changed, if that is plain."""
    if WORD.match(data, start)[0].decode().upper() in tokens:
        return ": keywords are in capitals"
    keyword = re.match(rb"[A-Z]*", data[place:])[0].decode()
    if start < place and keyword in tokens_after(data[:place]):
        return f": white space is missing before {keyword}"
    return ""


def why_at(data, place):
    """Why no query goes on with the byte at a place."""
    byte = data[place : place + 1]
    if place == 0 and data.startswith(MARK):
        return "a byte order mark: save the text without it"
    if byte in STRANGE:
        return STRANGE[byte]
    if byte != b"\n" and not b" " <= byte <= b"~":
        found, line = place_of(data, place)
        return f"no query has the character '{visible(line[found.column - 1])}'"
    start, tokens = token_at(data, place)
    if not tokens:
        return "no query goes on like this"
    word = WORD.match(data, start)[0].decode()
    return f"{expected(tokens)}, but found '{shown(word)}'{hint(data, start, place, tokens)}"


def why_at_end(data):
    """Why a text that only starts a query is none."""
    start, tokens = token_at(data, len(data))
    if not tokens:
        return "the text ends here, but the query goes on"
    ends = f"in '{shown(data[start:].decode())}'" if start < len(data) else "here"
    return f"{expected(tokens)}, but the text ends {ends}"


def fault_at(data, place, message):
    found, line = place_of(data, place)
    return fault(found, message, excerpt(line, found.column))


def unreadable(data, place):
    """Refusal 11."""
    if len(data) > MOST_TEXT_BYTES:
        return fault_at(data, place, f"the text is {len(data)} bytes long: this byte is over {MOST_TEXT_BYTES}")
    if place < len(data):
        return fault_at(data, place, why_at(data, place))
    # Behind what is typed: the white space at the end has nothing to show.
    typed = data.rstrip(WHITE)
    if typed == b"":
        return fault(place_of(data, 0)[0], f"no query: the text {'is empty' if data == b'' else 'has only white space'}")
    return fault_at(typed, len(typed), why_at_end(typed))


def unusable(data, answer):
    """What the check refuses with 5 or 7 in a query that was read."""
    if answer.number == 5:
        return fault(None, f"the query is {len(answer.made)} bytes long: over {MOST_BYTES}")
    # Only TRUST AS has an AS. Each with this variable clashes, so the first one does.
    variable = answer.made[answer.place] & 15
    place = re.search(rb"AS[ \n]*(?=\?%d(?![0-9]))" % variable, data).end()
    return fault_at(data, place, f"?{variable} of this TRUST AS stands in a triple or another TRUST AS too")
