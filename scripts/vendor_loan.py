"""Writes and takes an archive of the library's proofs, for `scripts/release --proofs` and
`scripts/vendor --proofs`.

The archive has the built libraries of the crates, with the checksums of their sources, of the built
files and of the kit. A crate of a copy takes its proof if all of these are equal, and all crates
below it take theirs. Such a proof is on loan: whoever wrote the archive is trusted. `./prove` and
`rt check` use it, and `rt ci` proves everything instead.
"""
import functools
import hashlib
import io
import json
import os
import pathlib
import shutil
import tarfile

from toolchain import toolchain

HEAD, MARK = "loan.json", "loan"
PARTS = ("src", "specs", "proofs")
OF_KIT = ("WHAT", "KIT-ID", "bin/rattle", "bin/rt", "bin/rtlib.py")
TOLD = """\
{count} of {all} crates have proofs on loan, from {name}. This is no verdict: ./prove and rt check
use them as they are, and trust whoever wrote {name}; `rt ci` proves everything.
"""


def sum_of(path):
    with open(path, "rb") as file:
        return hashlib.file_digest(file, "sha256").hexdigest()


def sums_below(folder, parts=("",)):
    """Returns the checksums of the files of a folder, or of its parts, by their paths in it."""
    files = (it for part in parts for it in sorted((folder / part).rglob("*")) if it.is_file())
    return {str(it.relative_to(folder)): sum_of(it) for it in files}


def sum_of_kit(rt):
    """Returns a checksum of what checks and reads proofs."""
    return hashlib.sha256(repr([sum_of(f"{rt.KIT}/{it}") for it in OF_KIT]).encode()).hexdigest()


def crates_of(rt, top, names):
    """Returns the libraries with these names below a folder, dependencies first."""
    rt.rtlib.Crate.stamp = functools.cache(rt.rtlib.Crate.stamp)
    return [it for it in rt.rtlib.crates_below(str(top)) if it.name in names and it.makes_rlib()]


def write(top, names, file):
    """Writes an archive of the proofs of these crates, which must be built, in a folder."""
    rt = toolchain()
    crates, told = crates_of(rt, top, names), {}
    if left := [it.name for it in crates if not it.is_built()]:
        raise ValueError(f"not proved: {', '.join(left)}")
    for it in crates:
        sources = sums_below(pathlib.Path(it.folder), PARTS)
        told[it.name] = {"said": it.said, "files": sources, "made": sums_below(pathlib.Path(it.rlib))}
    text = json.dumps({"kit": sum_of_kit(rt), "crates": told}).encode()
    with tarfile.open(file, "w:gz", compresslevel=1) as archive:
        head = tarfile.TarInfo(HEAD)
        head.size = len(text)
        archive.addfile(head, io.BytesIO(text))
        for it in crates:
            for name in told[it.name]["made"]:
                archive.add(f"{it.rlib}/{name}", f"{it.name}/{name}", recursive=False)


def unpack(archive, told, wanted):
    """Copies the files of these crates, by name, and returns the names of the crates whose files
    all have their checksums."""
    left = {name: dict(told[name]["made"]) for name in wanted}
    for member in archive:
        name, _, path = member.name.partition("/")
        value = left.get(name, {}).pop(path, None)
        if value is None or not member.isfile() or os.path.normpath(path) != path or path[:2] == "..":
            continue
        to = pathlib.Path(wanted[name].rlib) / path
        to.parent.mkdir(parents=True, exist_ok=True)
        with to.open("wb") as file:
            shutil.copyfileobj(archive.extractfile(member), file)
        if sum_of(to) != value:
            left[name][path] = value
    return {name for name, paths in left.items() if not paths}


def take(dest, names, path):
    """Copies the proofs of an archive to the crates of a copy, and returns whether all have them.
    Raises `ValueError` if the archive is of another kit."""
    rt = toolchain()
    crates = crates_of(rt, dest, names)
    with tarfile.open(path) as archive:
        first = archive.next()
        if first is None or first.name != HEAD:
            raise ValueError(f"{path} is not an archive of proofs")
        head = json.load(archive.extractfile(first))
        if head["kit"] != sum_of_kit(rt):
            raise ValueError(f"{path} is of another kit: its proofs cannot be read")
        told, wanted = head["crates"], {}
        for it in crates:
            here = it.name in told and sums_below(pathlib.Path(it.folder), PARTS)
            is_same = here and here == told[it.name]["files"] and it.said == told[it.name]["said"]
            has_all = all(dep.name in wanted or dep.is_built() for dep in it.deps)
            if is_same and has_all and not it.is_built():
                shutil.rmtree(pathlib.Path(it.rlib).parent, ignore_errors=True)
                wanted[it.name] = it
        whole = unpack(archive, told, wanted)
    for name, it in wanted.items():
        room = pathlib.Path(it.rlib).parent
        if name in whole and {dep.name for dep in it.below() if dep.name in wanted} <= whole:
            (room / "stamp").write_text(it.stamp(), encoding="utf-8")
            (room / MARK).write_text(f"{pathlib.Path(path).name}\n", encoding="utf-8")
        else:
            shutil.rmtree(room, ignore_errors=True)
    lent = [it for it in crates if (pathlib.Path(it.rlib).parent / MARK).is_file() and it.is_built()]
    print(TOLD.format(count=len(lent), all=len(crates), name=pathlib.Path(path).name), end="")
    return all(it.is_built() for it in crates)
