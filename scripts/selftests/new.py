"""Checks that files created by `./x new` pass the checks.

In a copy of the repository it creates a leaf and a combinator under five names each and a reader
under three, including a short name and one of half a line. The checks of lines, documentation,
names, pages and citations must then pass there, and generated files and formatting must be up to
date. Names that exist already or are invalid must be rejected, with nothing written. It proves
nothing, and takes about ten seconds.
"""
import shutil
import subprocess

from registry.common import TOP, contents
from selftests.common import python, ran

LEAF = "crates/winnow_token/src/token.rt"
COMBINATOR = "crates/winnow_comb/src/combinator/basic.rt"
LONG = "a_{}_with_a_name_that_is_half_a_line_of_code"
NAMES = {
    ("reader",): ["point", "x", LONG.format("format")],
    ("leaf", LEAF): ["word", "z", "any_other", "byte_2", LONG.format("leaf")],
    ("combinator", COMBINATOR): ["maybe", "y", "opt_of", "if_1", LONG.format("combinator")],
}
# Rejected names: an existing parser, a keyword, an invalid name, a name in the file, names of the
# model, and a file that is not a source of the library.
REFUSED = [
    ("leaf", LEAF, "any"),
    ("leaf", LEAF, "match"),
    ("leaf", LEAF, "Word"),
    ("leaf", LEAF, "short"),
    ("leaf", LEAF, "parser"),
    ("combinator", COMBINATOR, "option"),
    ("combinator", COMBINATOR, "e"),
    ("leaf", "crates/winnow_token/src/none.rt", "fine"),
    ("leaf", "x", "fine"),
    ("reader", "csv"),
    ("reader", "ini"),
    ("reader", "Point"),
    ("reader", "point"),
]
CHECKS = ["wrap.py", "lint.py", "by_name.py", "cited.py", "pages.py"]


def lay(room):
    """Copies the files that git tracks, and new ones, into a folder."""
    listed = ["git", "ls-files", "-z", "--cached", "--others", "--exclude-standard"]
    found = subprocess.run(listed, cwd=TOP, stdout=subprocess.PIPE, text=True, check=True).stdout
    for name in filter(None, found.split("\0")):
        if (TOP / name).is_file():
            (room / name).parent.mkdir(parents=True, exist_ok=True)
            shutil.copy2(TOP / name, room / name)


def differing(old, new):
    return sorted(it for it in {*old, *new} if old.get(it) != new.get(it))


def faults(room):
    """Returns descriptions of the errors."""
    lay(room)
    for words, names in NAMES.items():
        for name in names:
            status, said = python("new.py", *words, name, folder=room)
            if status:
                yield f"./x new {' '.join(words)} {name}: {said}"
    laid = contents(room)
    for words in REFUSED:
        status, said = python("new.py", *words, folder=room)
        if not status or "\n" in said and "x" not in words:
            yield f"./x new {' '.join(words)} is not rejected: {said}"
    for name in differing(laid, contents(room)):
        yield f"{name} was written though the name was rejected"
    for check in CHECKS:
        status, said = python(check, folder=room)
        if status:
            yield f"scripts/{check}: {said}"
    python("registries.py", folder=room)
    readers = [f"format_{name}" for name in NAMES[("reader",)]]
    for crate in ("winnow", "winnow_comb", "winnow_token", *readers):
        ran("rt", "fmt", folder=room / "crates" / crate)
    for name in differing(laid, contents(room)):
        yield f"{name} is out of date"
