"""The offsets of errors in TOML, by a parser of `toml_descent.py` and by Python's `tomllib`.

`format_toml_document` gives the first offset at which no document continues. The parser must give
the same one. The text before it is completed in many ways, one of which `tomllib` must accept. Of
one text in 50, the part up to the character at the offset is completed so too, and `tomllib` may
accept none. It stops at a key that is defined twice, so it does not judge texts with one.
"""
import re
import tomllib
import zlib

from peers.harness import often_changed
from peers.toml_descent import place
from peers.toml_texts import PARTS, texts

# A complete string, or a comment.
WHOLE = re.compile(
    r'"""(?:[^"\\]|\\[\s\S]|"{1,2}(?!"))*"{3,5}'
    r"|'''(?:[^']|'{1,2}(?!'))*'{3,5}"
    r'|"(?:[^"\\\n]|\\.)*"' r"|'[^'\n]*'|#[^\n]*"
)
# Errors that depend on earlier lines, and dates that `tomllib` does not support.
EARLIER = re.compile("Cannot|Duplicate|Invalid date")
# Dates and times that `tomllib` does not support.
MORE = re.compile(":[0-9]{2}:60|(?<![0-9])0000-")
# The number of texts of which one is completed in many ways.
SEARCHED = 50


def own_ends():
    """Yields what may complete a string, a key, a word, a number or a date."""
    yield from ("", "\n", "=0", "0", "1", ".0", "a=0", "]", "a]", "]]", "a]]", '""=0')
    quotes = ['"', "'", '"""', "'''", '""', "''", '"=0', "'=0", '"]', "']", '"]]', "']]"]
    yield from quotes
    yield from ("\n" + it for it in quotes)
    for digits in range(1, 9):
        for quote in ('"', '"""', '"=0', '"]', '"]]'):
            yield "0" * digits + quote
            yield "1" + "0" * (digits - 1) + quote
    yield from ("n" + it for it in quotes)
    for word in ("true", "false", "inf", "nan"):
        yield from (word[at:] for at in range(1, len(word)))
    for date in ("2000-01-01", "00:00:00", "2010-10-01"):
        yield from (date[at:] for at in range(1, len(date)))
    yield from ("-01-01", "0:00", "00:00", ":00:00", "0:00Z")


OWN = list(dict.fromkeys(own_ends()))


def closing(text):
    """Returns the brackets that close those that are open in a text, if no quotation mark is."""
    held, in_value = [], False
    for c in WHOLE.sub("s", text):
        if c == "\n" and not held:
            in_value = False
        in_value = in_value or c == "="
        if c in "[{" and (in_value or held):
            held.append("]" if c == "[" else "}")
        elif c in "]}" and held:
            held.pop()
    return "".join(reversed(held))


def fits(it):
    """Returns whether each integer of a value has 64 bits."""
    if isinstance(it, dict):
        return all(map(fits, it.values()))
    if isinstance(it, list):
        return all(map(fits, it))
    return isinstance(it, bool) or not isinstance(it, int) or -(2**63) <= it < 2**63


def is_read(text):
    """Returns whether `tomllib` accepts a text, or `None` if it stops at an earlier key."""
    try:
        return fits(tomllib.loads(text))
    except tomllib.TOMLDecodeError as error:
        return None if EARLIER.match(str(error)) else False


def is_begun(text):
    """Returns whether `tomllib` accepts a completion of a text, or `None` if it stops at an earlier
    key. The brackets at the end are those that are open, without the first, or one."""
    first, told = closing(text), False
    for end in dict.fromkeys((first, first[1:], "", "]", "}")):
        for own in OWN:
            for value in ("", "=0"):
                found = is_read(text + own + value + end)
                if found:
                    return True
                told = None if found is None else told
    return told


def is_searched(text):
    """Returns whether a text is completed in many ways."""
    return zlib.crc32(text.encode()) % SEARCHED == 0


def judge(row, answer, theirs):
    """Returns whether the offset is the first at which no document continues."""
    _, text = row
    at = place(text)
    front = text[:at]
    offset, is_document = answer.split(" ")[0], at is None
    if is_document and offset not in ("none", "earlier"):
        return False
    if not is_document and offset != str(len(front.encode())):
        return False
    if is_begun(front) is False:
        return "a second of 60, or a year of 0" if MORE.search(front) else False
    if is_document or at == len(text):
        return is_document or not theirs
    return not theirs and not (is_searched(text) and is_begun(text[: at + 1]))


def rows(rng, count):
    """Returns texts, most of them changed, each with a depth that it does not reach."""
    for _, text in texts(rng, count):
        yield 99, often_changed(rng, text, PARTS, (0, 1, 1, 2, 3))


def kind(row, answer, theirs):
    return "accepted" if answer in ("none", "earlier") else "rejected"
