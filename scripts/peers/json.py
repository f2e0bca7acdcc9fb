"""JSON compared with Python's `json`, which is set to reject `NaN` and `Infinity`, which are not
JSON, and strings with an unpaired surrogate, which is not a character.

Both print values in the same way: numbers unchanged, strings as the numbers of their characters,
members in order.
"""
import bisect
import json
import re

from peers.harness import Comparison, each, often_changed
from peers.json_texts import texts, wide_texts

# Bytes that are not valid UTF-8, and parts of characters.
ODD = [
    b"\x80", b"\xbf", b"\xc0\xaf", b"\xc3", b"\xe2\x82", b"\xed\xa0\x80", b"\xf4\x90\x80\x80",
]
GOES_ON = "0123456789.eE"


class Number(str):
    """The text of a number."""


def refuse(name):
    raise ValueError(name)


DECODER = json.JSONDecoder(
    parse_constant=refuse, parse_int=Number, parse_float=Number, object_pairs_hook=tuple
)


def levels_of(it):
    """Returns the nesting depth of arrays and objects."""
    if isinstance(it, list):
        return 1 + max(map(levels_of, it), default=0)
    if isinstance(it, tuple):
        return 1 + max((levels_of(inner) for _, inner in it), default=0)
    return 0


def written(it):
    """Returns a value as the program prints it; fails if it has an unpaired surrogate."""
    if it is None or isinstance(it, bool):
        return {None: "null", True: "true", False: "false"}[it]
    if isinstance(it, Number):
        return str(it)
    if isinstance(it, str):
        if any(0xD800 <= ord(c) < 0xE000 for c in it):
            raise ValueError(it)
        return "'" + "".join(f"{ord(c)}." for c in it) + "'"
    if isinstance(it, list):
        return "[" + "".join(written(inner) + "," for inner in it) + "]"
    return "{" + "".join(f"{written(name)}:{written(inner)}," for name, inner in it) + "}"


def whole(level, text):
    """Returns the value of a complete text, or `none`."""
    try:
        found = DECODER.decode(text)
        return written(found) if levels_of(found) <= level else "none"
    except ValueError:
        return "none"


def first(level, text):
    """Returns the value at the start of a text, the printed value, and its end; or None."""
    try:
        found, end = DECODER.raw_decode(text)
        return (found, written(found), end) if levels_of(found) <= level else None
    except ValueError:
        return None


# ---- extents and values

def extent(row):
    """Returns whether a text is JSON, the length of its first value, and the length of the rest."""
    level, text = row
    found = first(level, text)
    end = found[2] if found else "none"
    left = len(text) - (found[2] if found else 0)
    return f"{str(whole(level, text) != 'none').lower()} {end} {left}"


def values(row):
    """Returns the value of a text, the value at its start, and the length of the rest."""
    level, text = row
    found = first(level, text)
    begins = f"{found[1]} {len(text[found[2]:].encode())}" if found else "none"
    return f"{whole(level, text)} {begins}"


def kind(row, ours, theirs):
    if theirs.startswith(("none ", "false ")):
        return "none" if "none" in theirs.split(" ", 1)[1] else "begin with a value"
    return "JSON"


# ---- bytes, complete and partial

def odd_bytes(rng, count):
    """Returns depths and texts as bytes, some of them not valid UTF-8."""
    for level, text in wide_texts(rng, count):
        yield level, often_changed(rng, text.encode(), ODD, (0, 0, 0, 1, 2))


def first_bytes(level, given):
    """Returns the possible results for the value at the start, on complete and on partial input. A
    number followed by a digit, a point or an E is not a value, and more input may continue a
    number."""
    text = given.decode("utf-8", "surrogateescape")
    found = first(level, text)
    if found is None:
        return "none", {"none", "asks"}
    value, shown, end = found
    is_number = isinstance(value, Number)
    if is_number and text[end : end + 1] in [*GOES_ON]:
        return "none", {"none", "asks"}
    said = f"{shown} {len(text[end:].encode('utf-8', 'surrogateescape'))}"
    # After a number the result is `Incomplete` until a byte follows.
    return said, {"asks"} if is_number and not text[end:] else {said}


def pieces(row):
    """Returns the possible results for bytes."""
    level, given = row
    try:
        all_of_it = whole(level, given.decode())
    except ValueError:
        all_of_it = "none"
    said, cut = first_bytes(level, given)
    return {f"{all_of_it} {said} {it}" for it in cut}


def may_be(row, ours, theirs):
    return ours in theirs


def kind_of_pieces(row, ours, theirs):
    return "none" if ours.startswith("none ") else "JSON"


# ---- offsets of errors

def refused(rng, count):
    """Returns texts that Python rejects."""
    found = 0
    for _, text in wide_texts(rng, 100 * count):
        if found < count and isinstance(fault(text), json.JSONDecodeError):
            found += 1
            yield text


def fault(text):
    """Returns Python's error for a text, or None."""
    try:
        DECODER.decode(text)
    except ValueError as error:
        return error
    return None


def own_ends():
    """Yields what may complete a string, an escape, a number, a word or a member."""
    yield from ("", "0", ":0", '"":0')
    for digits in range(5):
        yield from ("0" * digits + '"', "0" * digits + "\\uDC00" + '"')
    yield from ("\\uDC00"[at:] + '"' for at in range(1, 6))
    yield 'n"'
    yield from (word[at:] for word in ("null", "true", "false") for at in range(1, len(word)))


OWN = [own + more for own in own_ends() for more in ("", ":0")]
STRING = re.compile(r'"(?:[^"\\]|\\.)*(?:"|\\?$)', re.DOTALL)


def is_begun(text):
    """Returns whether Python accepts some text that begins with this one."""
    held = []
    for c in STRING.sub("", text):
        if c in "[{":
            held.append("]" if c == "[" else "}")
        elif c in "]}" and held:
            held.pop()
    end = "".join(reversed(held))
    return any(whole(len(text), text + own + end) != "none" for own in OWN)


def place(text):
    """Returns the offset in bytes of the first character with which no text of JSON begins so."""
    ends = range(1, len(text) + 1)
    at = bisect.bisect_left(ends, True, key=lambda end: not is_begun(text[:end]))
    return str(len(text[:at].encode()))


def with_level(row):
    level, text = row
    return bytes([level]) + (text if isinstance(text, bytes) else text.encode())


COMPARISONS = [
    Comparison(
        "json/extents", "Python's json", "format_json_extents", "json_extents",
        texts, lambda row: bytes([row[0]]) + row[1].encode("latin-1"), each(extent), kind=kind,
        seed=8259,
    ),
    Comparison(
        "json/values", "Python's json", "format_json_values format_json_texts",
        "json_values json_writer", wide_texts, with_level, each(values), kind=kind, seed=7159,
    ),
    Comparison(
        "json/pieces", "Python's json", "format_json_pieces format_json_texts winnow",
        "json_pieces json_writer", odd_bytes, with_level, each(pieces), may_be, kind_of_pieces,
        seed=8259,
    ),
    Comparison(
        "json/faults", "Python's json, by prefixes", "format_json", "json_faults", refused,
        str.encode, each(place), kind=lambda *_: "rejected", seed=7159, count=2000,
    ),
]
