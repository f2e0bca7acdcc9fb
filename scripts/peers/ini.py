"""INI compared with Python's `configparser`: small documents in many dialects, and the files of
this machine with names of INI files, each in Python's dialect and in one with keys without values.

The values are those of a `RawConfigParser` with the same marks, which accepts duplicate sections
and keys. Differences for a reason in the table of `format_ini` are counted.
"""
import configparser
import os
import pathlib
import re

from peers.harness import Comparison, each, often_changed, some

# The maximum size of files, and the maximum number of their texts.
MOST, FILES = 100000, 4000
DELIMITERS = (("=",), (":",), ("=", ":"))
MARKS = ((), ("#",), (";",), ("#", ";"))
NAMES = (".ini", ".cfg", ".desktop", ".conf")
APART = ("/proc", "/sys", "/dev", "/tmp", "/work")
PARTS = ("", "[", "]", "=", ":", " #", ";", "\n", "\n ", "\r", "\t", "\x0c", "\x0b")
# Characters that are whitespace for Python, but not for `format_ini`.
OTHER_BLANKS = re.compile(
    "[\x0b\x1c-\x1f\x85\xa0\u1680\u2000-\u200a\u2028\u2029\u202f\u205f\u3000]"
)


def line(rng, delimiters, marks, inline):
    """Returns a line of a random kind."""
    word = lambda: some(rng, "ab. -é\"'$", (1, 1, 2, 4))
    blanks = rng.choice(("", "", "", " ", "  ", "\t"))
    mark = rng.choice(delimiters + ("=", ":"))
    comment = rng.choice((" #", " ;", "#", ";", " " + rng.choice(inline or ("#",)))) + " c"
    kind = rng.randrange(9)
    if kind == 0:
        return blanks + rng.choice(marks or ("#",)) + word()
    if kind == 1:
        return blanks
    if kind == 2:
        return blanks + "[" + word() + "]" + (comment if rng.random() < 0.2 else "")
    if kind == 3:
        return blanks + word()
    pair = blanks + word() + rng.choice(("", " ")) + mark + rng.choice(("", " ")) + word()
    return pair + (comment if rng.random() < 0.2 else "")


def texts(rng, count):
    """Returns dialects, as seven small numbers, and documents of a few lines."""
    for _ in range(count):
        flags = [rng.randrange(it) for it in (3, 4, 4, 3, 2)] + [0, 1]
        marks = DELIMITERS[flags[0]], MARKS[flags[1]], MARKS[flags[2]]
        end = rng.choice(("\n", "\n", "\r\n"))
        first = "" if rng.random() < 0.1 else "[" + rng.choice("ab") + "]" + end
        lines = [line(rng, *marks) for _ in range(rng.choice((0, 1, 2, 4, 7)))]
        text = first + end.join(lines) + ("" if rng.random() < 0.3 else end)
        yield flags, often_changed(rng, text, PARTS, (0, 0, 1, 2))


def text_of(path):
    """Returns the text of a file, or None if it is too large or not UTF-8."""
    try:
        data = path.read_bytes()
        return None if len(data) > MOST else data.decode("utf-8-sig")
    except (OSError, UnicodeDecodeError):
        return None


def files(rng, count):
    """Returns the texts of the files with such names, each once and in both dialects."""
    found = {}
    for top, folders, names in os.walk("/", onerror=lambda e: None):
        folders[:] = [it for it in sorted(folders) if os.path.join(top, it) not in APART]
        for path in (pathlib.Path(top, name) for name in sorted(names)):
            if path.suffix in NAMES and path.is_file() and not path.is_symlink():
                found[text_of(path)] = path
    found.pop(None, None)
    for text in list(found)[:FILES]:
        yield [2, 3, 0, 2, 0, 0, 1], text
        yield [2, 3, 3, 2, 1, 0, 1], text


def told(row):
    """Returns Python's result for a text: its sections with their values, or the kind of error."""
    flags, text = row
    lines = text.split("\n")
    if flags[3] == 0:
        # Python has no such dialect: without indented lines there are no continuations.
        lines = [it.lstrip() for it in lines]
    parser = configparser.RawConfigParser(
        delimiters=DELIMITERS[flags[0]],
        comment_prefixes=MARKS[flags[1]],
        inline_comment_prefixes=MARKS[flags[2]] or None,
        empty_lines_in_values=flags[3] == 2,
        allow_no_value=flags[4] == 1,
        strict=False,
        default_section="\0",
    )
    parser.optionxform = str
    try:
        parser.read_string("\n".join(lines))
    except (configparser.Error, AttributeError) as fault:
        return type(fault).__name__
    return {name: dict(parser.items(name)) for name in parser.sections()}


def shown(answer):
    """Returns the program's result in the form of Python's: sections with values, or the error."""
    words = re.findall(r"[SPM]\[[^\]]*\](?:=\[[^\]]*\]|-)?|none .*", answer)
    if not answer.startswith("some"):
        return words[0].split()[2] if words else answer
    text = lambda it: bytes(int(b) for b in re.findall(r"\d+", it)).decode()
    found, values, key = {}, None, None
    for word in words:
        if word[0] == "S":
            values = found.setdefault(text(word), {})
        elif word[0] == "P":
            key, equals, value = word.partition("=")
            key = text(key)
            values[key] = [text(value)] if equals else None
        else:
            values[key].append(text(word))
    for values in found.values():
        for key, value in values.items():
            if value is not None:
                values[key] = "\n".join(value).rstrip(" \t\r\n\x0c")
    return found


def judge(row, answer, python):
    """Returns whether both results are equal, or the reason why they differ."""
    flags, text = row
    ours = shown(answer)
    if ours == python or isinstance(ours, str) and isinstance(python, str):
        return True
    if OTHER_BLANKS.search(text):
        return "whitespace outside of ASCII"
    if flags[2] == 3 and any("#" in it and ";" in it for it in text.split("\n")):
        return "two inline comments in a line"
    return "a continued key without a value" if python == "AttributeError" else False


def kind(row, answer, python):
    return "read" if isinstance(python, dict) else "rejected by Python"


WITH = {
    "beside": "Python's configparser", "crates": "format_ini", "program": "ini", "seed": 1201,
    "given": lambda row: bytes(row[0]) + row[1].encode(), "peer": each(told), "judge": judge,
    "kind": kind,
}
COMPARISONS = [
    Comparison("ini/texts", rows=texts, count=3000, **WITH),
    Comparison("ini/files", rows=files, **WITH),
]
