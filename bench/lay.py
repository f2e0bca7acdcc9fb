#!/usr/bin/env python3
"""Copies the crate `timed` with its dependencies into a folder: `bench/lay.py FOLDER`.

`scripts/vendor` copies the library, so a later run copies only the files that changed, and `rt` proves
only the crates that changed. The format crates of the workloads and their dependencies are copied next
to it. The files of `timed` end in `.rs` here, since `.rt` files are only allowed in crates that
`crates.txt` names.
"""
import pathlib
import shutil
import subprocess
import sys

HERE = pathlib.Path(__file__).resolve().parent
TOP = HERE.parent
sys.path.insert(0, str(TOP / "scripts"))
from laid import copy_crate, library  # noqa: E402

READERS = ("readers", "format_json_values", "format_csv", "format_resp", "machines")
TIMED = f"timed staticlib: winnow format_json_texts {' '.join(READERS)}"


def lay(room):
    """Copies the crates into a folder, and creates its `crates.txt`."""
    room.mkdir(parents=True, exist_ok=True)
    vendor = [sys.executable, str(TOP / "scripts/vendor"), "--force", str(room)]
    subprocess.run(vendor, check=True, stdout=subprocess.DEVNULL)
    lines = library(*READERS)
    above = [name for name in lines if name not in library()]
    for name in (*above, "timed"):
        for part in ("src", "specs", "proofs"):
            shutil.rmtree(room / "crates" / name / part, ignore_errors=True)
    for name in above:
        copy_crate(name, room / "crates")
    source = room / "crates/timed/src"
    source.mkdir(parents=True)
    for file in sorted((HERE / "timed").glob("*.rs")):
        shutil.copyfile(file, source / f"{file.stem}.rt")
    named = "\n".join([*lines.values(), TIMED])
    (room / "crates.txt").write_text(named + "\n", encoding="utf-8")
    shutil.copyfile(TOP / "HANDLES", room / "HANDLES")


if __name__ == "__main__":
    if len(sys.argv) != 2:
        sys.exit(__doc__.strip())
    lay(pathlib.Path(sys.argv[1]).resolve())
