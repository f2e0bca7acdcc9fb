"""Writes an archive of the library for C and Rust, for `scripts/release --library`."""
import hashlib
import pathlib
import shutil
import subprocess
import sys
import tempfile

from abi import ABI
from registry.common import TOP, below, crates, read

SYSTEM = "linux-x86_64"
# (the folder that the archive is unpacked into is not known, and each file is two levels below it)
MOVED = {"pkgconfig": "${pcfiledir}", "cmake": "${CMAKE_CURRENT_LIST_DIR}/.."}


def said(*words):
    """Returns what a command prints."""
    ran = subprocess.run([str(it) for it in words], cwd=TOP, check=True, capture_output=True, text=True)
    return ran.stdout.strip()


def claims(name, version):
    """Returns the text that tells what was proved."""
    known = crates()
    names = " ".join(it for it in known if it in below("exported", known))
    proved = f"""Proved: each function of these crates has the results that its contract states.

{names}

The sources have these contracts in crates/exported. bindings/README.md and docs/GUARANTEES.md explain
them, and list what is only tested or trusted.
"""
    return f"""{name} {version}, ABI {ABI}, for Linux on x86-64 with SSSE3 and SSE4.2 (x86-64-v2), and glibc

Sources: commit {said("git", "describe", "--always", "--dirty", "--abbrev=40", "--exclude", "*")}
Kit: {said("rt", "version")}
{proved if name == "pergidau" else "Proved: nothing. It is for trials."}"""


def checksum(path):
    return hashlib.sha256(path.read_bytes()).hexdigest()


def fill(folder, name, version):
    """Puts the files of the archive into a folder."""
    words = ["UNPROVED=1"] if name != "pergidau" else []
    said("make", "-s", "-C", TOP / "bindings", "install", "PREFIX=", f"DESTDIR={folder}", *words)
    for part, here in MOVED.items():
        for path in folder.glob(f"lib/{part}/**/*.*"):
            text = read(path).replace("=/", f"={here}/../../").replace('"/', f'"{here}/../../')
            path.write_text(text, encoding="utf-8")
    shutil.copyfile(TOP / "LICENSE", folder / "LICENSE")
    (folder / "PROVED").write_text(claims(name, version).rstrip("\n") + "\n", encoding="utf-8")
    files = sorted(it for it in folder.glob("**/*") if it.is_file())
    sums = "".join(f"{checksum(it)}  {it.relative_to(folder)}\n" for it in files)
    (folder / "SHA256SUMS").write_text(sums, encoding="utf-8")


def compare(folder, older, room):
    """Exits if the shared library lacks something that the one of an older archive has."""
    if not shutil.which("abidiff"):
        print("abidiff is not installed: the library is not compared with the older one")
        return
    room.mkdir()
    said("tar", "-xzf", older, "-C", room)
    found = [next(it.glob("**/*.so")) for it in (room, folder)]
    ran = subprocess.run(["abidiff", *found], check=False, capture_output=True, text=True)
    # Bits 1 and 2 are errors, and bit 8 is an incompatible change.
    if ran.returncode & 11:
        print(ran.stdout + ran.stderr)
        sys.exit(f"a program of {older.name} may not run with this library")


def write_library(into, is_proved, older=None):
    """Writes the archive and its checksum into a folder. The library is built, but nothing is proved
    except `exported`."""
    name, version = "pergidau" if is_proved else "pergidau_unproved", read(TOP / "VERSION").strip()
    into, whole = pathlib.Path(into).resolve(), f"{name}-{version}-{SYSTEM}"
    into.mkdir(parents=True, exist_ok=True)
    older = older and pathlib.Path(older).resolve()
    words = [TOP / "bindings/build", "--kept" if is_proved else "--unproved"]
    if subprocess.run(words, check=False).returncode:
        sys.exit("run bindings/build first")
    with tempfile.TemporaryDirectory(prefix="release-") as made:
        room = pathlib.Path(made)
        fill(room / whole, name, version)
        if older:
            compare(room / whole, older, room / "older")
        archive = into / f"{whole}.tar.gz"
        same = "--sort=name --owner=0 --group=0 --mtime=@0".split()
        said("tar", *same, "-C", room, "-czf", archive, whole)
    sums = f"{checksum(archive)}  {archive.name}\n"
    (into / f"{archive.name}.sha256").write_text(sums, encoding="utf-8")
    print(f"{archive.name} is written")
