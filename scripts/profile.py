#!/usr/bin/env python3
"""Prints the time of each function and module in a crate's last check, slowest first:

    python3 scripts/profile.py CRATE

CRATE is a crate's name, or the folder of a crate of another repository. Times are computed from the
modification times of the files that `rt check` wrote to `out/incremental`: a module took the time
since the one before. So they are wall times, and correct for a clean check with one job on a
machine with little other load:

    cd crates/CRATE && rm -rf out/incremental && rt check --jobs 1

A function's row includes all modules that the kit generates for it, its proofs and its contract,
and shows which of these took most. Other rows are files of `specs/` and `proofs/`, by module.
"""
import collections
import pathlib
import re
import sys

CRATES = pathlib.Path(__file__).resolve().parent.parent / "crates"
# The maximum numbers of rows, and of parts per row.
ROWS, PARTS = 30, 3
# The modules that the kit generates for functions only; and the part of a crate that a module is of.
OF_A_FUNCTION = re.compile(r"proofs\.(.+)\.(?:Code|Tie|Lts)$")
KIND = re.compile(r"(specs\.contracts|specs|proofs)\.(.+)$")


def times(folder):
    """Returns the seconds of each module of a crate."""
    kept = (folder / "out/incremental").rglob("*.oantt")
    written = sorted((it.stat().st_mtime, it.name.removesuffix(".oantt")) for it in kept)
    found = collections.Counter()
    for (before, _), (now, name) in zip(written, written[1:]):
        # (A module's declarations are a separate file, written just before it.)
        found[re.sub(r"^Rattle-\w+-|\.decls$", "", name)] += now - before
    return found


def place(module, functions):
    """Returns a module's row, and its part of the row."""
    if not (kind := KIND.match(module)):
        return "exports for other crates", "exported"
    kind, path = kind.groups()
    words = path.split(".")
    above = (".".join(words[:count]) for count in range(len(words), 0, -1))
    found = next((it for it in above if it in functions), None) if kind != "specs" else None
    if found:
        part = "contract" if kind != "proofs" else words[-1] if path != found else "itself"
        return "fn " + found.replace(".", "::"), part
    is_contract = kind == "specs.contracts" or ".declared." in module
    return ("other contracts and types", "contract") if is_contract else (module, kind)


def show(crate, taken):
    """Prints the rows."""
    functions = {found[1] for found in map(OF_A_FUNCTION.match, taken) if found}
    rows, shares, whole = {}, collections.Counter(), sum(taken.values())
    for module, seconds in taken.items():
        row, part = place(module, functions)
        rows.setdefault(row, collections.Counter())[part] += seconds
        shares[part] += seconds
    told = lambda parts: ", ".join(f"{name} {took:.1f}" for name, took in parts.most_common(PARTS))
    print(f"{crate}: {whole:.0f} s in {len(taken)} modules: {told(shares)}")
    for row in sorted(rows, key=lambda it: -rows[it].total())[:ROWS]:
        took, by = rows[row].total(), f"  ({told(rows[row])})" if len(rows[row]) > 1 else ""
        print(f"{took:7.1f} s {took / whole:6.1%}  {row}{by}")


def main(words):
    if len(words) != 1:
        sys.exit(__doc__.strip())
    here = CRATES / words[0]
    folder = here if here.is_dir() else pathlib.Path(words[0]).resolve()
    taken = times(folder) if (folder / "src").is_dir() else sys.exit(f"there is no crate {words[0]}")
    if not taken:
        check = "rm -rf out/incremental && rt check --jobs 1"
        sys.exit(f"{folder.name} has no kept check: run in its folder: {check}")
    show(folder.name, taken)


if __name__ == "__main__":
    main(sys.argv[1:])
