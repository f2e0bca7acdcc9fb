"""The shared functions of comparisons: they generate and change texts, run both sides, compare and
count the results, and print a summary.

A format's module has a list `COMPARISONS` of rows: the inputs, the peer, and the intended
differences. `scripts/beside` runs them.
"""
import dataclasses
import pathlib
import random
import shutil
import struct
import subprocess
import sys
from collections import Counter
from typing import Callable

from laid import lay
from registry.common import TOP, read

PROGRAMS = pathlib.Path(__file__).resolve().parent / "programs"
# The maximum number of differences that are printed.
MOST_SHOWN = 200


class NoPeer(Exception):
    """An error: the peer is not available."""


def install(*packages):
    """Installs Debian packages."""
    ran = ["apt-get", "install", "-y", "-q", *packages]
    if subprocess.run(ran, capture_output=True, check=False).returncode:
        raise NoPeer(f"cannot install {' '.join(packages)}")


def is_alike(row, ours, theirs):
    """Returns whether both results are equal, for rows without intended differences."""
    return ours == theirs


def is_read(row, ours, theirs):
    """Returns the kind that a text is counted as."""
    return "none" if theirs == "none" else "read"


@dataclasses.dataclass
class Comparison:
    """A comparison. `rows` generates inputs from a random number generator and a count. `given`
    encodes an input for the program, which prints a line for each one. `peer` takes all inputs and
    returns the peer's results. `judge` takes an input and both results. It returns True if they
    agree, False if they differ, a text with the reason if they differ as intended, and None if
    there is nothing to compare. `kind` returns the kind that an input is counted as."""

    name: str
    beside: str
    # The crates that the program uses, and its files in `programs/`.
    crates: str
    program: str
    rows: Callable
    given: Callable
    peer: Callable
    judge: Callable = is_alike
    kind: Callable = is_read
    seed: int = 0
    count: int = 4000


# ---- texts

def some(rng, options, sizes):
    """Returns a random concatenation of these options, of one of these sizes."""
    return "".join(rng.choices(options, k=rng.choice(sizes)))


def changed(rng, text, parts):
    """Returns a text, or bytes, with one change: a piece is removed, doubled or replaced by one of
    these parts, or a part is inserted or appended; or the text is truncated."""
    at = rng.randint(0, len(text))
    to = min(len(text), at + rng.choice((0, 1, 1, 1, 2, 5)))
    part = rng.choice(parts)
    return rng.choice((
        text[:at] + text[to:],
        text[:at] + part + text[at:],
        text[:at] + part + text[to:],
        text[:at] + part + text[to:],
        text[:at] + text[at:to] * 2 + text[to:],
        text[:at] if rng.random() < 0.3 else text + part,
    ))


def often_changed(rng, text, parts, times=(0, 0, 1, 1, 2, 3)):
    """Returns a text with a random number of changes."""
    for _ in range(rng.choice(times)):
        text = changed(rng, text, parts)
    return text


def codes(data):
    """Returns bytes as the programs print them."""
    return str(list(data))


def summed(data):
    """Returns long bytes as the programs print them: their number and a checksum."""
    return f"{len(data)}:{int.from_bytes(data, 'big') % 65521} "


def each(read):
    """Returns a peer that reads one input at a time."""
    return lambda rows: [read(row) for row in rows]


# ---- our side

class Room:
    """A folder with the library and the programs of some comparisons, which are built there,
    unproved, when they are first run."""

    def __init__(self, folder, comparisons):
        self.folder = pathlib.Path(folder)
        self.crates = {crate_of(it): it.crates.split() for it in comparisons}
        above = [it for names in self.crates.values() for it in names if it != "winnow"]
        lay(self.folder, self.crates, list(dict.fromkeys(above)))
        for it in comparisons:
            main = self.folder / "crates" / crate_of(it) / "src/main.rt"
            files = [PROGRAMS / f"{name}.rt.txt" for name in [*it.program.split(), "rows"]]
            main.parent.mkdir(parents=True, exist_ok=True)
            main.write_text("\n".join(map(read, files)), encoding="utf-8")
        shutil.copyfile(TOP / "scripts/run", self.folder / "run")

    def answers(self, comparison, rows):
        """Returns the program's results. Each input is preceded by its length."""
        given = [comparison.given(row) for row in rows]
        ran = subprocess.run(
            [sys.executable, self.folder / "run", crate_of(comparison)],
            cwd=self.folder,
            input=b"".join(struct.pack(">I", len(it)) + it for it in given),
            stdout=subprocess.PIPE,
            check=False,
        )
        said = ran.stdout.decode(errors="replace").splitlines()
        if ran.returncode or len(said) != len(rows):
            print("\n".join(said[-5:]))
            sys.exit(f"{comparison.name}: {len(rows)} inputs, but {len(said)} results")
        return said


def crate_of(comparison):
    """Returns the crate of a comparison's program; comparisons may share a program."""
    return "beside_" + comparison.program.replace(" ", "_")


# ---- comparing

def compare(comparison, room, seed=None, count=None):
    """Runs one comparison and prints the results. Returns the number of inputs that differ, or 1 if
    it cannot be run."""
    rng = random.Random(comparison.seed if seed is None else seed)
    try:
        rows = [*comparison.rows(rng, comparison.count if count is None else count)]
        theirs = comparison.peer(rows)
    except NoPeer as why:
        print(f"{comparison.name} is not run: {why}")
        return 1
    ours = room.answers(comparison, rows)
    kinds, reasons, shown = Counter(), Counter(), 0
    for row, here, there in zip(rows, ours, theirs, strict=True):
        kinds[comparison.kind(row, here, there)] += 1
        verdict = comparison.judge(row, here, there)
        reasons[verdict] += 1
        if verdict is False and (shown := shown + 1) <= MOST_SHOWN:
            print(f"{row!r}\n  here:  {here}\n  there: {there}")
    told = ", ".join(f"{number} {kind}" for kind, number in kinds.most_common())
    agree, differ, left = (reasons.pop(it, 0) for it in (True, False, None))
    out = f", {left} not compared" if left else ""
    print(f"{comparison.name} compared with {comparison.beside}: {len(rows)} inputs ({told})")
    print(f"  {agree} agree, {differ} differ, {sum(reasons.values())} differ as intended{out}")
    for why, number in reasons.most_common():
        print(f"    {number}: {why}")
    sys.stdout.flush()
    return differ
