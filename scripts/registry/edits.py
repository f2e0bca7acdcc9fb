"""Reads the edits of crates (`edits/README.md` describes their form)."""
import re
import sys
from collections import namedtuple

from registry.common import CRATES, TOP, read

FOLDER = TOP / "edits"
# The first line of a wrong edit, which the prover must reject, and of a right one.
WRONG, RIGHT = "edit: ", "right: "
# The lines behind the first one: the two optional ones, and the replacements.
ALWAYS, FALSE = "gate: always\n", "false: "
LINES = re.compile(r"(gate: always\n)?(false: .+\n)?((?:file: .+\n|old: .+\n|new:.*\n)+)")

# An edit: its crate, its name, the lines of its replacements, whether the gate always tries it, and
# a clause that is false for the wrong body, or an empty text.
Written = namedtuple("Written", "crate name text always false", defaults=(False, ""))


def blocks_of(crate, first):
    """Returns the edits of a crate whose first lines begin so, sorted by name."""
    file, found = FOLDER / f"{crate}.txt", {}
    for block in re.split(r"\n\n+", read(file).strip("\n")) if file.is_file() else ():
        head, _, lines = f"{block}\n".partition("\n")
        taken = LINES.fullmatch(lines)
        if not head.startswith((WRONG, RIGHT)) or not taken:
            sys.exit(f"{file.relative_to(TOP)}: not an edit:\n{block}")
        if head in found:
            sys.exit(f"{file.relative_to(TOP)} has two edits `{head}`")
        note = (taken[2] or "").removeprefix(FALSE).strip()
        found[head] = Written(crate, head.partition(" ")[2], taken[3], bool(taken[1]), note)
    return [found[it] for it in sorted(found) if it.startswith(first)]


def edits_of(crate):
    """Returns the wrong edits of a crate."""
    return blocks_of(crate, WRONG)


def right_of(crate):
    """Returns the right edits of a crate."""
    return blocks_of(crate, RIGHT)


def must_fail_of(crate):
    """Returns the edits in `must-fail/`, which `rt ci` tries."""
    files = sorted((CRATES / crate / "must-fail").glob("*.edit"))
    return [Written(crate, it.stem, read(it)) for it in files]


def crates_with_edits():
    """Returns the crates that have a file of edits."""
    return sorted(it.stem for it in FOLDER.glob("*.txt"))


def text_of(wrong, right=()):
    """Returns the text of a file with these edits."""
    blocks = []
    for first, edits in ((WRONG, wrong), (RIGHT, right)):
        for it in sorted(edits):
            note = f"{FALSE}{it.false}\n" if it.false else ""
            blocks.append(f"{first}{it.name}\n{ALWAYS if it.always else ''}{note}{it.text}")
    return "\n".join(blocks)
