"""Tests the copies of `scripts/vendor`.

It copies the library with the parsers of two formats into a temporary folder, changes the copy to
an older state, and updates it. Each file that differs must be listed, changes of the user must be
reported, and the copy must then be equal to a new one. It runs and proves nothing, and takes about
ten seconds. `scripts/readme` runs programs over copies.
"""
import hashlib

from formats import FORMATS, lines_of, minutes_of
from laid import library
from parts import PARTS, taken
from registry.common import TOP, contents, read
from registry.readers import BRIEF
from selftests.common import python
from vendor_beside import costs, taken_names

WITH = ["--with", "json,csv"]
# The differences of the older state: a new file, a removed file, a changed file, and a removed
# crate.
NEW, OLD = "format_json_values/src/lib.rt", "format_csv/src/gone.rt"
OTHER, CRATE = "streams/specs/Input.antt", "old_reader"
MINE = "my_program: winnow format_json_values\n"
TOLD = [
    "removed crates/old_reader, all files",
    f"added crates/{NEW}",
    f"changed crates/{OTHER}",
    f"removed crates/{OLD}",
    "changed prove",
    "1 files added, 2 files removed, 2 files changed",
]


def vendor(*words):
    """Runs `scripts/vendor`, and returns its status and output."""
    return python("vendor", "--no-proofs", *words)


def put(room, name, text):
    """Writes a file as if it had been copied."""
    path, sums = room / "crates" / name.lstrip("/"), room / "crates/.vendored"
    path = room / name[1:] if name.startswith("/") else path
    path.parent.mkdir(parents=True, exist_ok=True)
    path.write_text(text, encoding="utf-8")
    kept = [line for line in read(sums).splitlines() if not line.endswith(f" {name}")]
    kept.append(f"{hashlib.sha256(path.read_bytes()).hexdigest()} {name}")
    sums.write_text("\n".join(kept) + "\n", encoding="utf-8")


def make_old(room):
    """Changes a copy to an older state."""
    put(room, OLD, "//! Gone.\n")
    put(room, OTHER, "-- as it was\n")
    put(room, f"{CRATE}/src/lib.rt", "//! An old reader.\n")
    put(room, "/prove", "#!/usr/bin/env python3\n")
    put(room, NEW, "")
    (room / "crates" / NEW).unlink()
    sums = room / "crates/.vendored"
    lines = read(sums).splitlines(keepends=True)
    sums.write_text("".join(it for it in lines if f" {NEW}" not in it), encoding="utf-8")
    with (room / "crates.txt").open("a", encoding="utf-8") as listed:
        listed.write(f"{CRATE}: winnow\n{MINE}")


def faults_of_names():
    """Returns the parsers that no format has, and the names of crates that the kit also has."""
    of_formats = {*lines_of(FORMATS)}
    for what, crates, _ in BRIEF:
        if lacking := {*crates} - of_formats:
            yield f"scripts/formats.py does not have {', '.join(sorted(lacking))} of {what}"
    for name in sorted({*lines_of(FORMATS), *library()} & taken_names()):
        yield f"the kit has a library {name}"
    always = {*library()}.difference(*PARTS.values())
    for part in PARTS:
        if lacking := always - {*taken([part])}:
            yield f"a copy with only the part {part} lacks {', '.join(sorted(lacking))}"
    if minutes_of(FORMATS) < len(FORMATS):
        yield "CONTRIBUTING.md does not have the costs of the parsers' proofs"
    if "./prove F" not in (command for command, _, _ in costs()):
        yield "docs/TUTORIAL.md does not have the costs of commands"


def faults_of_update(room, new):
    """Returns the errors of an update, after which the copy must be equal to a new one."""
    make_old(room)
    changed = room / "crates/format_json_writer/src/lib.rt"
    kept, text = contents(room), read(changed)
    changed.write_text(text + "// mine\n", encoding="utf-8")
    status, said = vendor("--update", room)
    if not status or not said.startswith("crates/format_json_writer/src/lib.rt\nthese files were changed"):
        yield f"a file that was changed in the copy is not reported: {said}"
    changed.write_text(text, encoding="utf-8")
    if contents(room) != kept:
        yield "it writes files though it fails"
    changed.write_text(text + "// mine\n", encoding="utf-8")
    status, said = vendor("--update", "--force", room)
    if status or "changed crates/format_json_writer/src/lib.rt" not in said:
        yield f"--force does not overwrite changed files: {said}"
    make_old(room)
    status, said = vendor("--update", room)
    if status or sorted(said.splitlines()[: len(TOLD)]) != sorted(TOLD):
        yield f"it does not list the changes: {said}"
    listed = read(room / "crates.txt").replace(MINE, "")
    (room / "crates.txt").write_text(listed, encoding="utf-8")
    for name, text in contents(room).items():
        if new.get(name) != text:
            yield f"{name} is not as in a new copy"
    if missing := {*new} - {*contents(room)}:
        yield f"{', '.join(sorted(missing))} missing in an updated copy"


def faults(folder):
    """Returns descriptions of the errors."""
    yield from faults_of_names()
    room, listed = folder / "copy", [*library(), *lines_of(["csv", "json"])]
    status, said = vendor(*WITH, room)
    names = [it.partition(":")[0] for it in read(room / "crates.txt").splitlines()[1:]]
    crates = sorted(it.name for it in (room / "crates").iterdir() if it.is_dir())
    if status or names != listed or crates != sorted(listed):
        yield f"{WITH}: {said}"
    if "Formats: csv, json\n" not in read(room / "crates/ORIGIN"):
        yield "crates/ORIGIN does not have the copied formats"
    yield from faults_of_update(room, contents(room))
    status, said = vendor("--with", "none", "--update", room)
    if status or (room / "crates/format_json_values").exists() or "format_csv" in read(room / "crates.txt"):
        yield f"--with none keeps the parsers: {said}"
    for words in (["--update"], ["--with", "cvs"], [*WITH, "--only", "text"]):
        status, said = vendor(*words, folder / "none")
        if not status or "error: " not in said or (folder / "none").exists():
            yield f"{words}: {said}"
