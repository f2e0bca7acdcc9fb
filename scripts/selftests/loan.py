"""Tests the archives of proofs of `scripts/vendor --proofs`.

Over an invented kit and two invented crates, a copy must take the proofs of an archive if the
sources, the archive's files and the kit are the same, and otherwise not. It proves nothing, and
takes a second.
"""
import contextlib
import io
import pathlib
import shutil
import tarfile
import types

import vendor_loan

NAMES = ("low", "high")


class Crate:
    """A crate of the kit."""

    def __init__(self, top, name, deps):
        self.name, self.deps, self.folder = name, deps, str(top / "crates" / name)
        self.said = {"name": name, "deps": [it.name for it in deps]}
        self.rlib = f"{self.folder}/out/rlib/{name}.rlib"

    def makes_rlib(self):
        return True

    def below(self):
        return self.deps

    def stamp(self):
        return repr(sorted(vendor_loan.sums_below(pathlib.Path(self.folder), ("src",)).items()))

    def is_built(self):
        stamp = pathlib.Path(self.rlib).parent / "stamp"
        return stamp.is_file() and stamp.read_text(encoding="utf-8") == self.stamp()


def crates_below(top):
    low = Crate(pathlib.Path(top), "low", [])
    return [low, Crate(pathlib.Path(top), "high", [low])]


def lay(top):
    """Creates the sources of the crates, and returns them."""
    for it in crates_below(top):
        source = pathlib.Path(it.folder) / "src/lib.rt"
        source.parent.mkdir(parents=True)
        source.write_text(f"//! {it.name}\n", encoding="utf-8")
    return top


def built(top, archive):
    """Returns the crates that have proofs after an archive is taken."""
    with contextlib.redirect_stdout(io.StringIO()):
        vendor_loan.take(top, NAMES, archive)
    return [it.name for it in crates_below(top) if it.is_built()]


def spoil(archive, to, name):
    """Copies an archive, with other contents of one of its files."""
    with tarfile.open(archive) as old, tarfile.open(to, "w:gz") as new:
        for member in old:
            data = old.extractfile(member).read()
            data = data.replace(b"proof", b"fraud") if member.name == name else data
            new.addfile(member, io.BytesIO(data))


def faults(room):
    """Returns descriptions of the errors."""
    kit = room / "kit"
    for name in vendor_loan.OF_KIT:
        (kit / name).parent.mkdir(parents=True, exist_ok=True)
        (kit / name).write_text("kit\n", encoding="utf-8")
    rtlib = types.SimpleNamespace(Crate=Crate, crates_below=crates_below)
    stamp = Crate.stamp
    vendor_loan.toolchain = lambda: types.SimpleNamespace(KIT=str(kit), rtlib=rtlib)
    vendor_loan.functools = types.SimpleNamespace(cache=lambda it: stamp)
    archive, spoiled = room / "proofs.tar.gz", room / "spoiled.tar.gz"
    for it in crates_below(lay(room / "origin")):
        made = pathlib.Path(it.rlib) / "lang/made"
        made.parent.mkdir(parents=True)
        made.write_text(f"proof of {it.name}\n", encoding="utf-8")
        (pathlib.Path(it.rlib).parent / "stamp").write_text(it.stamp(), encoding="utf-8")
    vendor_loan.write(room / "origin", NAMES, archive)
    if built(lay(room / "same"), archive) != [*NAMES]:
        yield "the proofs of the same sources are not taken"
    for name, wanted in (("low", []), ("high", ["low"])):
        changed = lay(room / f"changed_{name}")
        (changed / "crates" / name / "src/lib.rt").write_text("//! other\n", encoding="utf-8")
        if (found := built(changed, archive)) != wanted:
            yield f"{name} has other sources, and {found} have proofs"
        spoil(archive, spoiled, f"{name}/lang/made")
        if (found := built(lay(room / f"spoiled_{name}"), spoiled)) != wanted:
            yield f"the proof of {name} was changed, and {found} have proofs"
    (kit / "WHAT").write_text("another kit\n", encoding="utf-8")
    with contextlib.suppress(ValueError):
        yield f"the kit is another one, and {built(lay(room / 'other_kit'), archive)} have proofs"
    shutil.rmtree(room / "origin/crates/low/out")
    with contextlib.suppress(ValueError):
        vendor_loan.write(room / "origin", NAMES, archive)
        yield "an archive is written without a proof"
