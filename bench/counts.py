#!/usr/bin/env python3
"""Counts the instructions and the allocations of each workload:

    bench/counts.py [WORDS IN A WORKLOAD'S NAME]      prints a table in Markdown
    bench/counts.py --write                           writes counts.txt
    bench/counts.py --check [WORDS ..]                compares with counts.txt

`run.sh` builds the two programs and calls this script. The table has, for the library, nom and the
hand-written loop, in this order: instructions per byte of the text, with those of the allocator, by
valgrind's callgrind; calls of `malloc` and `realloc`; and allocated bytes per byte of the text. Other
load on the machine does not affect them.

`counts.txt` has the library's instructions in each workload; `measured.py` documents the check.
"""
import os
import pathlib
import sys
from concurrent.futures import ThreadPoolExecutor

from measured import check, instructions, requests, said_by, write

HERE = pathlib.Path(__file__).resolve().parent
PROGRAM = HERE / "target/release/bench"
# The same program, built so that it counts allocations.
COUNTING = HERE / "target/requests/release/bench"
WRITTEN = HERE / "counts.txt"
HEAD = "| Workload | instructions per byte | allocations | bytes allocated per byte |"


def counted(place, name):
    """Returns the instructions per byte of a run, its allocations, and the allocated bytes per byte."""
    words = ["run", str(place), name]
    made, text, _ = instructions([PROGRAM, *words])
    asked, size = requests([COUNTING, *words])
    return made / text, asked, size / text


def row(readers, name):
    found = [counted(place, name) for place in range(readers)]
    cells = [" / ".join(f"{it[0]:.1f}" for it in found), "", ""]
    if any(it[1] for it in found):
        cells[1] = " / ".join(f"{it[1]:,}" for it in found)
        cells[2] = " / ".join(f"{it[2]:.2f}" for it in found)
    return f"| {name} | {' | '.join(cells)} |"


def listed(only):
    """Returns the number of readers of each workload, and its name."""
    lines = (line.split(" ", 1) for line in said_by([PROGRAM, "list"]).splitlines())
    return [(int(readers), name) for readers, name in lines if only in name]


def side_by_side(do, works):
    """Yields the result of `do` for each workload, in order, with half of the processors."""
    with ThreadPoolExecutor(max(1, (os.cpu_count() or 1) // 2)) as pool:
        yield from pool.map(do, works)


def table(only):
    print(f"{HEAD}\n|---|---|---|---|", flush=True)
    for line in side_by_side(lambda it: row(*it), listed(only)):
        print(line, flush=True)


def of_library(only):
    """Returns the library's instructions in each workload."""
    works = listed(only)
    made = side_by_side(lambda it: instructions([PROGRAM, "run", "0", it[1]])[0], works)
    return {name: count for (_, name), count in zip(works, made)}


def main(words):
    if words[:1] == ["--write"]:
        write(WRITTEN, of_library(""))
    elif words[:1] == ["--check"]:
        only = "".join(words[1:2])
        check(WRITTEN, of_library(only), only)
    else:
        table("".join(words[:1]))


if __name__ == "__main__":
    main(sys.argv[1:])
