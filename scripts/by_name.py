#!/usr/bin/env python3
"""Checks that each public parser has a table row, a test and an edit under its name.

Run it at the top of the repository:

    python3 scripts/by_name.py

A public parser is a struct in a file of its own under `src/*/impls/` of a library crate. The
`impls.rt` next to that folder re-exports it, and its name is that of the file. It needs:

- a row in `docs/PARSERS.md` with a link to its definition, a file of `specs/`;
- a test: a function of `tests/` whose name starts with the parser's, or a row labelled with it;
- an edit that the prover must reject, in `edits/` or `must-fail/`, of its crate or of a dependency.
  The edit's name starts with the parser's, and not with a longer parser's;
- a call in a test, so that it is type-checked at a concrete type. Adapters of `Parser` and methods
  of streams need a call too.

It fails if one of these is missing.
"""
import re
import sys

from registry.common import CRATES, TOP, crates
from registry.edits import edits_of, must_fail_of


def parsers():
    """Returns the public parsers, each with its crate."""
    for path in sorted(CRATES.glob("*/src/*/impls/*.rt")):
        if f"::impls::{path.stem}::" in path.parent.with_suffix(".rt").read_text(encoding="utf-8"):
            yield path.relative_to(CRATES).parts[0], path.stem


def rows():
    """Returns the definitions that the table's rows link, by the names in the first cells."""
    found = {}
    for line in (TOP / "docs/PARSERS.md").read_text(encoding="utf-8").splitlines():
        cells = [cell.strip() for cell in line.strip("|").split("|")]
        if not re.match(r"\| \[?`", line) or len(cells) < 2:
            continue
        links = re.findall(r"\]\(\.\./([^)]+/specs/[^)]+)\)", line)
        for name in re.findall(r"`\.?(\w+)`", cells[0]) if links else ():
            found[name] = links
    return found


def tests():
    """Returns the names of the functions and the labels of the rows in the tests."""
    names = set()
    for path in (TOP / "tests").glob("**/*.rs"):
        names.update(re.findall(r"\bfn (\w+)|\"(\w+)\"", path.read_text(encoding="utf-8")))
    return {name for pair in names for name in pair if name}


def edits():
    """Returns each edit's crate and the longest parser's name that the edit's name starts with."""
    known = {name for _, name in parsers()}
    for crate in [it.name for it in CRATES.iterdir()]:
        for edit in [*edits_of(crate), *must_fail_of(crate)]:
            names = [name for name in known if edit.name.startswith(name + "_")]
            if names:
                yield crate, max(names, key=len)


def calls():
    """Returns the adapters of `Parser` and the methods of streams, each with its crate."""
    for crate, file in (("winnow_core", "parser"), ("streams", "stream")):
        text = (CRATES / crate / "src" / f"{file}.rt").read_text(encoding="utf-8")
        for name in re.findall(r"^    (?:final )?fn (\w+)", text, re.MULTILINE):
            yield crate, name


def code_of_tests():
    """Returns the code of the tests, without comments, string literals and imports."""
    texts = [path.read_text(encoding="utf-8") for path in (TOP / "tests").glob("**/*.rs")]
    code = re.sub(r'"(?:[^"\\\n]|\\.)*"|//.*', "", "\n".join(texts))
    return re.sub(r"^\s*(?:pub )?use [^;]*;", "", code, flags=re.MULTILINE)


def uncalled():
    """Returns the parsers and methods that no test calls, neither the function nor its struct."""
    code = code_of_tests()
    called = {*re.findall(r"(?<!fn )\b(\w+)(?:::<[^;(]*>)?\(", code)}
    called |= {*re.findall(r"\b[A-Z]\w*", code)}
    for crate, name in [*parsers(), *calls()]:
        camel = "".join(part.capitalize() for part in name.split("_"))
        if not called & {name, camel, f"{camel}Parser"}:
            yield crate, name, "a call in tests/"


def lacks(crate, name, table, names, edited, on):
    """Returns descriptions of a parser's missing items."""
    if name not in table:
        yield "a row in docs/PARSERS.md"
    elif not table[name] or not all((TOP / link).is_file() for link in table[name]):
        yield "a definition that its row links"
    if not any(test == name or test.startswith(name + "_") for test in names):
        yield "a test in tests/"
    if not any((at, name) in edited for at in on[crate]):
        yield "an edit that the prover must reject"


def main():
    table, names, edited = rows(), tests(), set(edits())
    on = {name: {name, *others} for name, others in crates().items()}
    missing = [
        (crate, name, what)
        for crate, name in parsers()
        for what in lacks(crate, name, table, names, edited, on)
    ] + list(uncalled())
    for crate, name, what in missing:
        print("%s: %s lacks %s" % (crate, name, what))
    return 1 if missing else 0


if __name__ == "__main__":
    sys.exit(main())
