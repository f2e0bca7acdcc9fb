"""Checks that `scripts/edits` fails if an edit is correct.

In a copy of the repository, it gives an edit of a file of `stream_sets` a body equivalent to the
original. `scripts/edits` must report it and fail, both in the gate's sample with the file's other
edits and without them. This takes a minute or two if the crates below are proved.
"""
import re
import shutil

from registry.common import TOP, lines_of_crates
from registry.edits import Written, edits_of, text_of
from selftests.common import SCRIPTS, python

CRATE, RIGHT, FILE = "stream_sets", "complement_is_the_set", "file: src/byte_set.rt\n"
EDIT = Written(CRATE, RIGHT, f"{FILE}old:     !word\nnew:     !(word)\n")
CRATES = ("streams", CRATE)
LAST = re.compile(r"(\d+) tried, (\d+) refused by an open goal, (\d+) by a stored answer")


def lay(room):
    """Copies the files that `scripts/edits` needs for the crate into a folder."""
    leave = shutil.ignore_patterns("out", "__pycache__")
    for name in CRATES:
        shutil.copytree(TOP / "crates" / name, room / "crates" / name, ignore=leave)
    shutil.copytree(SCRIPTS, room / "scripts", ignore=leave)
    shutil.copyfile(TOP / "HANDLES", room / "HANDLES")
    (room / "edits").mkdir()
    listed = "".join(f"{lines_of_crates()[it]}\n" for it in CRATES)
    (room / "crates.txt").write_text(listed, encoding="utf-8")


def fails(room, others, *words):
    """Returns whether the script, with these arguments, reports only the correct edit, and counts
    the others as rejected."""
    (room / "edits" / f"{CRATE}.txt").write_text(text_of([EDIT, *others]), encoding="utf-8")
    status, said = python("edits", *words, folder=room)
    print(said, flush=True)
    *_, accepted, last = ["", *said.splitlines()]
    tried, by_goal, by_answer = map(int, LAST.fullmatch(last).groups() if LAST.fullmatch(last) else "000")
    is_counted = tried == len(others) + 1 and by_goal + by_answer == len(others)
    return status == 1 and accepted.startswith(f"{CRATE}/{RIGHT}: accepted") and is_counted


def faults(room):
    """Returns descriptions of the errors."""
    lay(room)
    others = [it for it in edits_of(CRATE) if it.name != RIGHT and FILE in it.text]
    if not fails(room, others, "--gate", "--commit", "selftest"):
        yield "a correct edit passes in a group"
    if not fails(room, [], CRATE):
        yield "a correct edit passes by itself"
