"""Copies the proofs that this machine kept to a copy of the library, for `scripts/vendor`."""
import os
import shutil

from kept import give_all
from toolchain import toolchain

# The bytes of the library's proofs, and those that a disk must have left after them.
SIZE, LEFT = 4_200_000_000, 5_000_000_000


def fits(rt, dest):
    """Returns whether the kept proofs can be linked, or the disk has room for a copy."""
    store = getattr(rt, "STORE", None)
    if not store or not os.path.isdir(store):
        return False
    is_linked = os.stat(store).st_dev == os.stat(dest).st_dev
    return is_linked or shutil.disk_usage(dest).free > SIZE + LEFT


def lay_kept(dest, names):
    """Copies the kept proofs of these crates, prints how many have them, and returns whether all
    do."""
    if not shutil.which("rt") or not fits(toolchain(), dest):
        return False
    try:
        crates, given = give_all(dest, names)
    except SystemExit as wrong:
        # The kit stops if, for instance, a line of `crates.txt` names a crate that is missing.
        print(f"no kept proofs are copied: {wrong}")
        return False
    left = sorted(it.name for it in crates if it.name not in given)
    if given:
        print(f"{len(given)} of {len(crates)} crates have the proofs that `rt ci` kept on this machine")
    if given and left:
        print(f"without: {', '.join(left)}")
    return not left
