#!/usr/bin/env python3
"""Measures the workloads for `run`, and prints a table in Markdown:

    table.py all [TURNS]     instructions, time and allocations
    table.py counts          instructions and allocations
    table.py time [TURNS]    time
    table.py write           writes the library's instructions to counts.txt
    table.py check           compares with counts.txt (`bench/measured.py`)

The instructions are those of a reader's second call, in its own process, with the allocator and all
loaded libraries, by valgrind's callgrind. Allocations are counted by a preloaded library
(`peers/requests.c`). Times are the best of TURNS turns, in which the readers of a text alternate. A
number of another reader is followed by a ratio: this library's instructions or time divided by that
reader's. If it is below 1, this library takes less.
"""
import pathlib
import re
import sys
from concurrent.futures import ThreadPoolExecutor

HERE = pathlib.Path(__file__).resolve().parent
OUT = HERE.parent / "out"
PROGRAM, COUNTS = OUT / "cargo/release/beside", OUT / "beside/requests.so"
WRITTEN = HERE / "counts.txt"
sys.dont_write_bytecode = True
sys.path.insert(0, str(HERE.parent.parent / "bench"))
from measured import check, instructions, load, machine, requests, said_by, write  # noqa: E402

TURNS = 30
SIDE_BY_SIDE = 2


def works():
    """Yields the name of each workload, the size of its text, and the names of its readers."""
    for line in said_by([PROGRAM, "list"]).splitlines():
        name, file, *readers = line.split("\t")
        yield name, (OUT / "beside/texts" / file).stat().st_size, readers


def of_library():
    """Returns the library's instructions in each workload."""

    def counted(at):
        return instructions([PROGRAM, "run", str(at), "0"])[0]

    names = [name for name, *_ in works()]
    with ThreadPoolExecutor(SIDE_BY_SIDE) as pool:
        return dict(zip(names, pool.map(counted, range(len(names)))))


def counts(runs):
    """Returns the instructions per byte of each run, its allocations, and the allocated bytes."""

    def counted(run):
        words = [PROGRAM, "run", *map(str, run)]
        made, text, said = instructions(words)
        found = re.search(r"found .*", said)[0]
        return made / text, *requests(words, LD_PRELOAD=str(COUNTS)), found

    with ThreadPoolExecutor(SIDE_BY_SIDE) as pool:
        made = dict(zip(runs, pool.map(counted, runs)))
    for run in runs:
        if made[run][-1] != made[run[0], 0][-1]:
            sys.exit(f"reader {run[1]} of workload {run[0]} has another result: {made[run][-1]}")
    return made


def times(turns):
    """Returns the speed of each reader in megabytes per second."""
    speeds = {}
    for line in said_by([PROGRAM, "time", str(turns)]).splitlines():
        work, *numbers = line.split()
        speeds |= {(int(work), place): float(it) for place, it in enumerate(numbers)}
    return speeds


def cell(number, ratio):
    """Formats a number, followed by the ratio for another reader."""
    return f"{number} ({ratio:.2f})" if ratio is not None else number


def rows(all_works, counted, timed):
    for at, (name, size, readers) in enumerate(all_works):
        for place, reader in enumerate(readers):
            cells = [f"{name}, {size // 1000:,} kB" if place == 0 else "", reader]
            own, this = (at, 0), (at, place)
            if counted:
                made, asked, of_bytes, _ = counted[this]
                cells.append(cell(f"{made:.2f}", counted[own][0] / made if place else None))
            if timed:
                ratio = timed[this] / timed[own] if place else None
                cells.append(cell(f"{timed[this]:,.0f}", ratio))
            if counted:
                cells += [f"{asked:,}", f"{of_bytes:,}"]
            yield f"| {' | '.join(cells)} |"


def versions():
    """Returns the versions of the readers' Debian packages."""
    packages = re.findall(r"[a-z-]+-dev", (HERE / "run").read_text(encoding="utf-8"))
    words = ["dpkg-query", "-W", "-f", "${source:Package} ${source:Upstream-Version}\n", *packages]
    found = {it.removeprefix("rust-").partition("+")[0] for it in said_by(words).splitlines()}
    return ", ".join(sorted(found))


def main(what, turns):
    all_works = [*works()]
    runs = [(at, place) for at, it in enumerate(all_works) for place in range(len(it[2]))]
    counted = counts(runs) if what != "time" else None
    begun = load()
    timed = times(turns) if what != "counts" else None
    print(f"{versions()}.")
    if timed:
        print(
            f"Times are the best of {turns} turns on {machine()}. The load average was {begun} at the"
            f" start and {load()} at the end."
        )
    heads = ["Workload", "Reader"]
    heads += ["Instructions per byte"] if counted else []
    heads += ["Megabytes per second"] if timed else []
    heads += ["Allocations", "Bytes allocated"] if counted else []
    print(f"\n| {' | '.join(heads)} |\n|{'---|' * len(heads)}")
    for line in rows(all_works, counted, timed):
        print(line)


if __name__ == "__main__":
    WHAT = sys.argv[1] if len(sys.argv) > 1 else ""
    if WHAT == "write":
        write(WRITTEN, of_library())
    elif WHAT == "check":
        check(WRITTEN, of_library())
    elif WHAT in ("all", "counts", "time"):
        main(WHAT, int(sys.argv[2]) if len(sys.argv) > 2 else TURNS)
    else:
        sys.exit(__doc__.strip())
