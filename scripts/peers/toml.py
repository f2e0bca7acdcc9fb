"""TOML compared with Python's `tomllib`: generated texts, and the Cargo and Python manifests of
this machine.

If `format_toml` accepts the lines, `tomllib` returns the same tables and values, or reports a
duplicate. If it rejects them, so does `tomllib`, or the text has something that `format_toml` does
not support, found by patterns: integers of more than 64 bits, or too deeply nested arrays and
tables. Seconds of 60 and a year of 0 are accepted here, by RFC 3339, and not by `tomllib`.
"""
import datetime
import pathlib
import re
import tomllib

from peers import toml_errors
from peers.harness import Comparison, each
from peers.toml_texts import texts

LEFT_OUT = re.compile(
    "[0-9](_?[0-9]){18}|0x([0-9a-fA-F]_?){16}|0o([0-7]_?){21}|0b([01]_?){64}"
)


def written(it):
    """Returns a value as the program prints it, with tables as dictionaries."""
    if isinstance(it, bool):
        return "true" if it else "false"
    if isinstance(it, int):
        return str(it)
    if isinstance(it, float):
        return "%" + repr(it)
    if isinstance(it, str):
        return "'" + "".join(f"{ord(c)}." for c in it) + "'"
    if isinstance(it, dict):
        return {name: written(inner) for name, inner in it.items()}
    if isinstance(it, (datetime.date, datetime.time)):
        return written_moment(it)
    return [written(inner) for inner in it]


def written_moment(it):
    """Returns a date, a time or both as text, with six fraction digits, and with the offset in
    minutes."""
    day = f"{it.year}-{it.month}-{it.day}" if isinstance(it, datetime.date) else ""
    has_time = isinstance(it, (datetime.datetime, datetime.time))
    clock = f"T{it.hour}:{it.minute}:{it.second}.{it.microsecond:06}" if has_time else ""
    offset = it.utcoffset() if has_time else None
    minutes = "" if offset is None else f"+{offset // datetime.timedelta(minutes=1)}"
    return f"@{day}{clock}{minutes}"


def read_moment(text, at):
    """Parses a date or time that the program printed, and returns it with the offset after it."""
    found = re.compile(r"@([0-9-]*)(T[0-9:]+\.)?([0-9]*)(\+-?[0-9]+)?").match(text, at)
    day, clock, fraction, offset = found.groups(default="")
    return f"@{day}{clock}" + ((fraction + "000000")[:6] if clock else "") + offset, found.end()


def read_key(text, at):
    """Parses the names of a key that the program printed, and returns them with the offset after
    them."""
    names = []
    while text[at] == "~":
        end = text.index("'", at)
        names.append("".join(chr(int(code)) for code in text[at + 1 : end].split(".")[:-1]))
        at = end + 1
    return names, at + 1


def put(table, names, value):
    """Puts a value into a table at the path of its names, which may lead through the last elements
    of arrays of tables."""
    for one in names[:-1]:
        table = table.setdefault(one, {})
        table = table[-1] if isinstance(table, list) else table
    if value is None:
        inner = table.setdefault(names[-1], {})
        return inner[-1] if isinstance(inner, list) else inner
    table[names[-1]] = value
    return table


def read_value(text, at):
    """Parses a value that the program printed, and returns it with the offset after it."""
    if text[at] == "[":
        items, at = [], at + 1
        while text[at] != "]":
            item, at = read_value(text, at)
            items.append(item)
            at += 1
        return items, at + 1
    if text[at] == "{":
        table, at = {}, at + 1
        while text[at] != "}":
            names, at = read_key(text, at)
            value, at = read_value(text, at)
            put(table, names, value)
            at += 1
        return table, at + 1
    if text[at] == "'":
        end = text.index("'", at + 1)
        return text[at : end + 1], end + 1
    if text[at] == "%":
        end = re.compile("[a-zA-Z0-9.+-]*").match(text, at + 1).end()
        return "%" + repr(float(text[at + 1 : end])), end
    if text[at] == "@":
        return read_moment(text, at)
    end = re.compile("[a-z0-9-]*").match(text, at).end()
    return text[at:end], end


def tables(answer):
    """Returns the tables of a result."""
    top = {}
    at = top
    for item in answer.split(" ")[1:]:
        if item[0] == "[":
            at = put(top, read_key(item, 1)[0], None)
        elif item[0] == "*":
            names = read_key(item, 1)[0]
            outer = put(top, names[:-1], None) if names[:-1] else top
            at = {}
            outer.setdefault(names[-1], []).append(at)
        else:
            names, end = read_key(item, 0)
            put(at, names, read_value(item, end)[0])
    return top


def depth(it):
    """Returns an upper bound of the nesting depth of arrays and inline tables."""
    if isinstance(it, dict):
        return 1 + max(map(depth, it.values()), default=0)
    if isinstance(it, list):
        return 1 + max(map(depth, it), default=0)
    return 0


def told(row):
    """Returns the result of `tomllib`, or its error."""
    try:
        return tomllib.loads(row[1])
    except tomllib.TOMLDecodeError as error:
        return error


def judge(row, answer, theirs):
    """Returns whether both results are equal, or the reason why they differ."""
    level, text = row
    is_read = answer != "row none"
    if isinstance(theirs, Exception):
        if is_read and re.match("Cannot|Duplicate", str(theirs)):
            return "a duplicate key or table"
        if is_read and toml_errors.MORE.search(text):
            return "a second of 60, or a year of 0"
        return not is_read
    if not is_read:
        if LEFT_OUT.search(text):
            return "an integer of more than 64 bits"
        deep = max(map(depth, theirs.values()), default=0) > level
        return "nested deeper than the limit" if deep else False
    # tomllib replaces CRLF by a line feed.
    return written(theirs) == tables(answer)


def kind(row, answer, theirs):
    return "refused" if answer == "row none" else "read"


def files(rng, count):
    """Returns the texts of the Cargo and Python manifests of this machine, each with a depth."""
    for pattern in ("Cargo.toml", "pyproject.toml"):
        for place in (pathlib.Path.home(), pathlib.Path("/usr"), pathlib.Path("/opt")):
            for path in sorted(place.rglob(pattern)):
                try:
                    yield 9, path.read_bytes().decode()
                except (OSError, UnicodeDecodeError):
                    continue


WITH = {
    "beside": "Python's tomllib", "crates": "format_toml format_toml_tree", "program": "toml",
    "given": lambda row: bytes([row[0]]) + row[1].encode(), "peer": each(told), "judge": judge,
    "kind": kind, "seed": 7159,
}
COMPARISONS = [
    Comparison("toml/texts", rows=texts, **WITH),
    Comparison("toml/files", rows=files, **WITH),
    Comparison(
        "toml/errors", "a parser, and Python's tomllib", "format_toml_document", "toml_errors",
        toml_errors.rows, WITH["given"], each(lambda row: toml_errors.is_read(row[1])),
        toml_errors.judge, toml_errors.kind, 1979,
    ),
]
