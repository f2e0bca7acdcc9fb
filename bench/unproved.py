#!/usr/bin/env python3
"""Builds `timed` without proofs into ROOM/libtimed.a: `bench/unproved.py ROOM CPU`.

It is for trying a change before it is proved: `BENCH_UNPROVED=1 bench/run.sh`. It creates a program that
calls each export, from which `llvm.py` compiles the exports.
"""
import pathlib
import re
import sys

from lay import lay
from llvm import compiled

PROGRAM = """//! Calls each export.
#![tactic(auto)]
use std::io;
use std::io::Read;
use timed::outcome::Outcome;

fn main(rt: HostRuntime) -> io::Result<()> {{
    let mut text = Vec::new(rt.alloc());
    rt.stdin().read_to_end(&mut text)?;
    let mut out = Outcome {{ count: 0, sum: 0, left: 0 }};
{calls}
    println!(rt; "{{}}", out.count)
}}
"""
EXPORT = re.compile(r'pub extern "C" fn (\w+)\(\s*([^)]*)\)')
GIVEN = {
    "Global": "rt.alloc()",
    "&[u8]": "&text",
    "&'static [u8]": 'b"ab"',
    "&mut Outcome": "&mut out",
    "usize": "1",
}
# The LLVM types of an export's parameters. A `Global` is not passed.
CROSSES = {
    "Global": [],
    "&[u8]": ["ptr", "i64"],
    "&'static [u8]": ["ptr", "i64"],
    "usize": ["i64"],
}



def exports(source):
    """Yields the module, the name and the parameter types of each export."""
    for file in sorted(source.glob("*.rt")):
        for name, given in EXPORT.findall(file.read_text(encoding="utf-8")):
            yield file.stem, name, re.findall(r"\w+: ([^,]+)", given)


def lay_program(room):
    """Copies the workloads into a folder as a library, with a program that calls each of them."""
    lay(room)
    crates = room / "crates.txt"
    text = crates.read_text(encoding="utf-8").replace("timed staticlib:", "timed:")
    crates.write_text(f"{text}timed_program: timed\n", encoding="utf-8")
    calls = [
        f"    timed::{module}::{name}({', '.join(GIVEN[it] for it in types)});"
        for module, name, types in exports(room / "crates/timed/src")
    ]
    source = room / "crates/timed_program/src"
    source.mkdir(parents=True, exist_ok=True)
    text = PROGRAM.format(calls="\n".join(calls))
    (source / "main.rt").write_text(text, encoding="utf-8")


def wrappers(source):
    """Yields LLVM functions that call the exports, with their names in C."""
    for module, name, types in exports(source):
        kinds = [kind for it in types for kind in CROSSES.get(it, ["ptr"])]
        given = ", ".join(f"{kind} %a{at}" for at, kind in enumerate(kinds))
        called = f'@"timed::{module}::{name}"({given})'
        yield f"define void @{name}({given}) #92 {{\n  call void {called}\n  ret void\n}}\n"


def build(room, cpu):
    lay_program(room)
    compiled(room, cpu, "timed", wrappers(room / "crates/timed/src"))


if __name__ == "__main__":
    if len(sys.argv) != 3:
        sys.exit(__doc__.strip())
    build(pathlib.Path(sys.argv[1]).resolve(), sys.argv[2])
