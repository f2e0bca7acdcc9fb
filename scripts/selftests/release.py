"""Tests `scripts/release` in a copy of the files that it reads. It releases nothing, and takes some
seconds."""
import shutil

from registry.common import TOP, contents, crates, read
from selftests.common import python

FILES = [
    "scripts/release",
    "scripts/abi.py",
    "scripts/exports.py",
    "scripts/header.py",
    "scripts/header_cxx.py",
    "scripts/api.py",
    "crates.txt",
    "CHANGELOG.md",
    "VERSION",
    "bindings/c/pergidau.h",
    "bindings/c/pergidau.hpp.in",
    "bindings/c/pergidau.map",
    "bindings/rust/Cargo.toml",
    "bindings/serde/Cargo.toml",
]


def items(text):
    """Returns the lines of notes in a text."""
    return [line for line in text.splitlines() if line.startswith("- ")]


def release(room, *words):
    """Returns whether the script succeeds."""
    return not python("release", *words, folder=room)[0]


def faults(room):
    """Returns descriptions of the errors."""
    for name in FILES:
        (room / name).parent.mkdir(parents=True, exist_ok=True)
        shutil.copyfile(TOP / name, room / name)
    for name in ("changes", "scripts/registry", *(f"crates/{it}/src" for it in crates())):
        if (TOP / name).is_dir():
            shutil.copytree(TOP / name, room / name)
    (room / "docs").mkdir()
    log, changes = room / "CHANGELOG.md", room / "changes"
    first, *_ = read(room / "VERSION").split(".")
    new, newer = f"{int(first) + 1}.0.0", f"{int(first) + 1}.0.10"
    changes.mkdir(exist_ok=True)
    (changes / "one.md").write_text("- One.\n", encoding="utf-8")
    wanted = items(read(log).partition("## Unreleased\n")[2].partition("\n## ")[0])
    wanted += [it for path in sorted(changes.glob("*")) for it in items(read(path))]
    before = contents(room)
    for version in ("1", "1.0", "v1.0.0", "0.0.0", "-1.0.0", "01.0.0"):
        if release(room, version) or contents(room) != before:
            yield f"{version} is released"
    if not release(room, new) or not release(room, "--check"):
        yield f"{new} is not released"
    written = read(log).partition(f"\n## {new}\n\n")[2].partition("\n## ")[0]
    if not (room / "docs/api/README.md").is_file():
        yield f"{new} has no reference"
    if items(written) != wanted or any(changes.glob("*")):
        yield "its notes are not those of CHANGELOG.md and of changes/"
    if release(room, newer):
        yield f"{newer} is released, with no change"
    changes.mkdir(exist_ok=True)
    (changes / "two.md").write_text("- Two.\n", encoding="utf-8")
    if release(room, new) or not release(room, newer) or not release(room, "--check"):
        yield f"{new} is released twice, or {newer} is not released after it"
    if f"## Unreleased\n\n## {newer}\n\n- Two.\n\n## {new}\n\n" not in read(log):
        yield f"{newer} is not above {new}"
    if any(f'version = "{newer}"' not in read(room / it) for it in FILES[-2:]):
        yield "a crate for Rust has another version"
    if f'#define PERGIDAU_VERSION "{newer}"' not in read(room / "bindings/c/pergidau.h"):
        yield "the header has another version"
    (room / "VERSION").write_text(f"{new}\n", encoding="utf-8")
    if release(room, "--check"):
        yield "VERSION and CHANGELOG.md may have different versions"
