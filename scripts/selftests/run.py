"""Tests `./run`, which `scripts/vendor` copies.

In a temporary repository with one program that uses only std, `./run` must build once, and again
after an edit; pass arguments, standard input and the folder to the program; return its exit code;
stop at a panic; and report errors. It takes half a minute.
"""
import shutil
import subprocess

from registry.common import TOP

PROGRAM = """//! Prints its input, and the file that its argument names.
#![tactic(auto)]

use std::io::{self, Read};
use std::process::ExitCode;
use std::{env, fs};

fn main(rt: HostRuntime) -> io::Result<ExitCode> {
    let mut text = String::new(rt.alloc());
    rt.stdin().read_to_string(&mut text)?;
    print!(rt; "{text}")?;
    let count = env::args(&rt)?.count();
    if let Some(path) = env::args(&rt)?.nth(1) {
        print!(rt; "{}", fs::read_to_string(&rt, path.as_str())?)?;
    }
    let codes = [9_u8, 0, 7];
    Ok(ExitCode::from(codes.as_slice()[count]))
}
"""
BUILDS = "run: building mine, unproved"
NOT_BUILT = 125
SIGILL = -4
# The arguments, the standard input, the status and output, and a text on standard error or None.
# The first run builds.
RUNS = [
    (["mine"], "in\n", (0, "in\n"), BUILDS),
    (["mine", "file"], "in\n", (7, "in\nof a file\n"), None),
    (["mine", "none"], "", (1, ""), "NotFound"),
    (["mine", "file", "more"], "", (SIGILL, "of a file\n"), "mine: stopped: "),
    (["yours"], "", (NOT_BUILT, ""), "run: yours is not a crate here; programs: mine"),
    (["low"], "", (NOT_BUILT, ""), "run: low is a library; programs: mine"),
]


def lay(room):
    """Creates a repository with a program and a library."""
    for name, file, text in (("mine", "main", PROGRAM), ("low", "lib", "//! Nothing.\n")):
        source = room / "crates" / name / "src"
        source.mkdir(parents=True)
        (source / f"{file}.rt").write_text(text, encoding="utf-8")
    (room / "crates.txt").write_text("low:\nmine: low\n", encoding="utf-8")
    (room / "below").mkdir()
    (room / "below/file").write_text("of a file\n", encoding="utf-8")
    shutil.copy2(TOP / "scripts/run", room / "run")


def ran(room, words, given=""):
    """Runs `./run` in another folder, and returns the status and the outputs."""
    said = subprocess.run(
        [room / "run", *words], cwd=room / "below", input=given, capture_output=True, text=True,
        check=False,
    )
    return (said.returncode, said.stdout), said.stderr


def faults(room):
    lay(room)
    for words, given, wanted, error in RUNS:
        found, said = ran(room, words, given)
        if found != wanted or (error or "") not in said or (error is None and said):
            yield f"./run {' '.join(words)}: {found} {said}"
    source = room / "crates/mine/src/main.rt"
    source.write_text(PROGRAM.replace("count()", "counted()"), encoding="utf-8")
    found, said = ran(room, ["mine"])
    if found != (NOT_BUILT, "") or BUILDS not in said or "src/main.rt:" not in said:
        yield f"a program that does not compile: {found} {said}"
    source.write_text(PROGRAM.replace("9_u8, 0", "9_u8, 3"), encoding="utf-8")
    found, said = ran(room, ["mine"])
    if found != (3, "") or BUILDS not in said:
        yield f"a program that was changed: {found} {said}"
