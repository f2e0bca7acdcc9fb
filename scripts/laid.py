"""Copies the library into another folder, for programs that are run over it."""
import shutil

from registry.common import CRATES, TOP, crates, lines_of_crates


def library(*above):
    """Returns the lines of `crates.txt` for the library's crates, dependencies first, and for the
    crates `above` with their dependencies."""
    found, known, lines = {}, crates(), lines_of_crates()

    def add(name):
        for it in known[name]:
            if it in known and it not in found:
                add(it)
        found[name] = lines[name]

    for name in (*known["winnow"], "winnow", *above):
        add(name)
    return found


def copy_crate(name, folder):
    """Copies a crate's code, specs and proofs."""
    for part in ("src", "specs", "proofs"):
        if (CRATES / name / part).is_dir():
            shutil.copytree(CRATES / name / part, folder / name / part)


def lay(room, others, above=()):
    """Copies the library into a folder, with the crates `above` it, and appends the crates `others`
    with their dependencies to its `crates.txt`."""
    lines = library(*above)
    for name in lines:
        copy_crate(name, room / "crates")
    lines |= {name: f"{name}: {' '.join(on)}" for name, on in others.items()}
    (room / "crates.txt").write_text("\n".join(lines.values()) + "\n", encoding="utf-8")
    shutil.copyfile(TOP / "HANDLES", room / "HANDLES")
