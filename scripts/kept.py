#!/usr/bin/env python3
"""Copies proofs that `rt ci` kept on this machine to the crates of a folder:
`scripts/kept.py FOLDER`.

The folder is one that another script created. Then `rt` proves only the other crates there. Kits
from 13f on keep what passed `rt ci`; with an older kit nothing is copied. A crate's proof is copied
if all its dependencies have theirs, or are built in the folder already. The kit checks that the
crate is the same: code, specs, proofs, handles, and the libraries below.
"""
import functools
import os
import pathlib
import shutil
import sys

sys.dont_write_bytecode = True
sys.path.insert(0, str(pathlib.Path(__file__).resolve().parent))
from toolchain import toolchain  # noqa: E402


def sum_once(rt):
    """Makes the kit compute the checksum of each file once. (It would do so after the file is
    copied, and again for the crates above.)"""
    sum_of = rt.rtlib.sum_of
    known = functools.cache(lambda path, *_: sum_of(path))

    def found(path):
        state = os.stat(path)
        return known(path, state.st_ino, state.st_size, state.st_mtime_ns)

    rt.rtlib.sum_of = found


def give(rt, crates):
    """Copies the kept proofs of these crates, in any order, and returns the names of those that are
    then built."""
    store, given = rt.Kept([*crates]) if hasattr(rt, "Kept") else None, set()
    for it in sorted(crates, key=lambda it: len(it.below())):
        if not {dep.name for dep in it.below()} <= given:
            continue
        if not it.is_built():
            if not store:
                continue
            # The kit drops the kept proof of a crate if files of another build are next to it.
            shutil.rmtree(pathlib.Path(it.folder) / "out/rlib", ignore_errors=True)
            if not store.give(it, False, store.key(it)):
                continue
            stamp = pathlib.Path(it.folder) / "out/rlib/stamp"
            stamp.write_text(it.stamp(), encoding="utf-8")
        if store:
            store.is_built(it)
        given.add(it.name)
    return given


def give_all(top, names=None):
    """Copies the kept proofs of the libraries below a folder, or of those with these names. Returns
    the libraries, and the names of those that are then built."""
    rt = toolchain()
    # A crate reads the stamps of all its dependencies.
    rt.rtlib.Crate.stamp = functools.cache(rt.rtlib.Crate.stamp)
    crates = [it for it in rt.rtlib.crates_below(str(top)) if not it.is_program and not it.is_static]
    crates = [it for it in crates if names is None or it.name in names]
    if all(it.is_built() for it in crates):
        return crates, {it.name for it in crates}
    sum_once(rt)
    return crates, give(rt, crates)


def main(top):
    crates, given = give_all(top)
    left = ", ".join(sorted(it.name for it in crates if it.name not in given)) or "none"
    print(f"{len(given)} of {len(crates)} crates are already proved; not proved: {left}.")


if __name__ == "__main__":
    if len(sys.argv) != 2:
        sys.exit(__doc__.strip())
    main(pathlib.Path(sys.argv[1]).resolve())
