"""Tests the messages and the queue of `./prove`, which `scripts/vendor` copies, and the names that
`./check` finds.

From recorded output of the prover, it must print the function, the goal and the sentence that
matters, and find imports that nothing uses. For each wrong variant of FIRST_PROOF's parser in
`prove_samples`, the first five lines must name the function, the clause and the cause. While
another `./prove` runs, it must print the reason why it waits.

A script that prints recorded lines takes the prover's place. If the lines name functions that are not
covered (`*.ahead`), the check must end at once, and each must be printed with its reason and its row
of MESSAGES.md. Otherwise each function must have a line with the count, and its verdict before the
check ends; the time that is left only if all libraries are proved. Every row of MESSAGES.md about
such functions must be known, and proofs that the kit keeps must be found. It proves nothing, and
takes half a minute.
"""
import contextlib
import fcntl
import io
import json
import re
import subprocess
import sys
import time
from types import SimpleNamespace

from registry.common import TOP
from selftests.common import SCRIPTS, module

# Each file has recorded output of the prover, below a line that describes the variant and three
# with what must be named.
SAMPLES = SCRIPTS / "selftests/prove_samples"
FIRST = 5
# In the place of the prover: prints each line of a file; at `keep F` it keeps a function's proof
# instead, at `wait N` it waits, and at `stage S` that stage has ended.
PROVER = """\
#!/usr/bin/env python3
import pathlib, sys, time
room, steps = map(pathlib.Path, sys.argv[-2:])
for line in steps.read_text().splitlines():
    word, _, last = line.partition(" ")
    if word == "keep":
        (room / f"Rattle-mine-proofs.{last}.Proof.oantt").touch()
    elif word == "wait":
        time.sleep(float(last))
    elif word == "stage":
        (steps.parent / "stages").write_text(f"{line} 1.0 1\\n")
    else:
        print(line, flush=True)
"""
STEPS = """\
logic /kit/antt-project.json: libraries=16
keep one
checked mine::one, 1 of 3
wait 1.5
keep part.two
wait 1.5
checked mine::part::two, 2 of 3
checked mine::three, 3 of 3
fn mine::one: proved
fn mine::part::two: proved
fn mine::three: not proved
"""
# What must be printed of these, in this order, without times.
LINES = ["1 of 3: mine::one: proved", "2 of 3: mine::part::two: proved", "3 of 3: mine::three: checked"]
# Code with two pairs of names that differ by case.
ITEMS = """\
struct Header { size: char } // fn HEADER() {}
impl Header { fn header(&self) -> char { '}' } }
fn header() -> &'static str { r#"mod M {" }"# }
trait Reads { fn kind(&self); fn size(&self) {} }
enum Kind { Size }
mod kind { fn one() { /* fn One() {} */ } }
fn One() {}
"""
# The first words of the section of MESSAGES.md about functions that are not covered, and of its rows
# that are about other errors.
LIMITS = "## Limits of the prover"
OTHERS = ("overflow_add", "because of a bug", "lifetime may not live", "the same")
# Output of the prover, and the part of it that must be printed.
TYPES = """\
./proofs/settings/Answers.antt:6:15: error: `returns`: as printed, the two types first differ where one has `Rattle.mine.specs.Read.SettingsRead`
  (expected), right after `(`, and the other has `Rattle.winnow.specs.Grammar.Gathered` (found)
  computed as far as they go, the two types differ only where one has `61` (expected) and the other has `58` (found)
  expected type `Rattle.winnow.specs.Exact.Whole.ReadsAll {I = g.row.I.Denot}`
  but this has type `Rattle.winnow.specs.Exact.Whole.ReadsAll {I = g.row.I-Slice.Denot}`
fn mine::settings: not proved
fn mine::parse: no proof: it calls `mine::settings`, which is not proved
logic /kit/antt-project.json: libraries=16
only=2 proved=0
"""
TYPES_TOLD = """\

mine::settings: NOT PROVED
  proofs/settings/Answers.antt:6:15, `returns`, the clause `ensures`:
    two types differ: one has `61` (the goal), the other `58` (the proof)
mine::parse waits for mine::settings
"""
GOAL = """\
note: src/main.rt:12:1: it is not proved that what the function ensures holds when it returns (`returns`)
note: a goal may be false even if its line does not say so: rattle seldom finds values
fn mine::setting: no proof: expected answers in ./proofs/setting/Answers.antt; `search` did not prove `returns`
help: write ./proofs/setting/Answers.antt with these lines, and check again: each hole's goal is what is left to show there
    pub returns : goal.returns
    returns c = ?
note: `returns` of proofs/setting/Answers.antt must prove: Rattle.std.specs.IfOk c.parse_next.result
  names you can use, by step:
  | c.args: .input {.ref_ptr, .ghost_name, .now}
"""
GOAL_TOLD = """\

mine::setting: NO PROOF
  src/main.rt:12:1: it is not proved that what the function ensures holds when it returns (`returns`): the clause `ensures`
  `returns`, the clause `ensures`, must prove:
    IfOk c.parse_next.result
  Is the statement true of this code? If not, change the code. If it is, answer the goal:
  ./prove --allow-holes --short-goals setting
"""
CODE = """\
src/main.rt:15:34: error[unknown-name]: cannot find value `Digit2` in this scope
"""
GOALS = {
    "returns": "the clause `ensures`",
    "returns-clause-rest": "the clause `ensures rest`",
    "returns-in-Ok": "the clause `ensures`, for `Ok`",
    "read_all-requires-clause-premise": "the clause `requires premise` of the call `read_all`",
    "measure": "",
}


def told(prove, crate, lines):
    """Returns what is printed of the prover's output."""
    with contextlib.redirect_stdout(io.StringIO()) as out:
        prove.Messages(crate, lines.splitlines(keepends=True)).tell()
    return out.getvalue()


def faults_of_messages(prove):
    """Returns the messages that are not as they must be."""
    for lines, wanted in ((TYPES, TYPES_TOLD), (GOAL, GOAL_TOLD), (CODE, CODE)):
        if (printed := told(prove, "mine", lines)) != wanted:
            yield f"of\n{lines}it prints\n{printed}"
    for goal, wanted in GOALS.items():
        if prove.clause(goal) != wanted:
            yield f"{goal}: {prove.clause(goal)}"


def faults_of_samples(prove):
    """Returns the wrong variants whose first lines lack a required name."""
    for file in sorted(SAMPLES.glob("*.txt")):
        lines = file.read_text(encoding="utf-8").splitlines(keepends=True)
        names = [it.removeprefix("# ").strip() for it in lines[1:4]]
        first = told(prove, "my_settings", "".join(lines[4:])).splitlines()[:FIRST]
        for name in names:
            if name not in "\n".join(first):
                yield f"{file.name}: {name} is not in {first}"


def faults_of_imports(prove, room):
    """Returns an error if an unused import is not found."""
    file = room / "proofs/f/Answers.antt"
    file.parent.mkdir(parents=True)
    text = "use A.B.{C, D, ◌≡◌}\nuse A.F.Goals as goal\n\nreturns : goal.returns\nreturns = C ≡ 1\n"
    file.write_text(text, encoding="utf-8")
    if [*prove.unused_imports(room)] != ["proofs/f/Answers.antt: nothing uses D"]:
        yield f"unused imports: {[*prove.unused_imports(room)]}"


def faults_of_waiting(prove, room):
    """Returns an error if a second `./prove` does not print why it waits."""
    with (room / "lock").open("a+", encoding="utf-8") as lock:
        prove.turn(lock)
        prove.Progress(lock, ["one"]).note("proves")
        code = f"import runpy; it = runpy.run_path({str(TOP / 'scripts/prove')!r}); "
        code += f"it['turn'](open({str(room / 'lock')!r}, 'a+')); print('then this one')"
        ran = subprocess.Popen([sys.executable, "-c", code], stdout=subprocess.PIPE, text=True)
        first = ran.stdout.readline()
        fcntl.flock(lock, fcntl.LOCK_UN)
        if "./prove one, which proves" not in first or ran.communicate()[0] != "then this one\n":
            yield f"a second ./prove prints: {first}"


def checked(prove, room, steps, keep_going=False, is_whole=False):
    """Runs a check by the script in the prover's place. Returns its status, its lines, what it
    printed, and the seconds that it took."""
    room.mkdir()
    (room / "antt-checked-1").mkdir()
    (room / "rattle").write_text(PROVER, encoding="utf-8")
    (room / "rattle").chmod(0o755)
    (room / "steps").write_text(steps, encoding="utf-8")
    prove.SAID, prove.STAGES = room / "said", room / "stages"
    lib = SimpleNamespace(guarded=lambda: [], RATTLE=str(room / "rattle"))
    asked = SimpleNamespace(all=False, keep_going=keep_going)
    begun = time.monotonic()
    with (room / "lock").open("a+", encoding="utf-8") as lock:
        with contextlib.redirect_stdout(io.StringIO()) as out:
            progress = prove.Progress(lock, ["one"], 9, is_whole, room)
            words = [str(room / "antt-checked-1"), str(room / "steps")]
            status, lines = prove.check(lib, SimpleNamespace(folder=room), words, asked, progress)
    return status, lines, out.getvalue(), time.monotonic() - begun


def faults_of_progress(prove, room):
    """Returns the lines of a check that are not as they must be."""
    for is_whole in (False, True):
        status, _, printed, _ = checked(prove, room / f"progress-{is_whole}", STEPS, is_whole=is_whole)
        lines = [re.sub(r", \d+ s(, [^:]*)?: ", ": ", it).strip() for it in printed.splitlines()]
        if status or lines != LINES or ("left" in printed) != is_whole:
            yield f"of a check it prints\n{printed}"


def faults_of_uncovered(prove, room):
    """Returns the recorded lines at which the check does not end, or is not explained."""
    for file in sorted(SAMPLES.glob("*.ahead")):
        lines = file.read_text(encoding="utf-8").splitlines()
        names = [it.removeprefix("# ") for it in lines[1:] if it.startswith("# ")]
        first, *others = (it for it in lines if not it.startswith("#"))
        ahead = [first, "wait 3", *others, "stage batches"]
        steps = "\n".join([*ahead, "wait 20", "fn mine::f: proved"])
        status, found, _, took = checked(prove, room / file.stem, steps)
        with contextlib.redirect_stdout(io.StringIO()) as out:
            prove.tell_uncovered(prove.uncovered(found))
        missing = [it for it in names if it not in out.getvalue()]
        if missing or not status or took > 15:
            yield f"{file.name}: {missing} is not in\n{out.getvalue()}({took:.0f} s, status {status})"
        is_all = checked(prove, room / f"{file.stem}-all", steps.replace("wait 20", "wait 3"), True)[1]
        if "fn mine::f: proved\n" not in is_all:
            yield f"{file.name}: --keep-going ends too"


def faults_of_rows(prove):
    """Returns the differences between the rows of MESSAGES.md and those that are known."""
    text = (TOP / "docs/MESSAGES.md").read_text(encoding="utf-8").partition(LIMITS)[2]
    rows = [it.strip("` ").partition("`")[0] for it in re.findall(r"^\| ([^|]*) \|", text, re.MULTILINE)[1:]]
    rows = {it for it in rows if not it.startswith(OTHERS)}
    for it in sorted(rows ^ {*prove.ROWS}):
        yield f"{it!r} is not in both {LIMITS} of MESSAGES.md and scripts/prove"


def faults_of_kept(prove, room):
    """Returns an error if proofs that the kit keeps are not found."""
    made = room / "proof-low-key"
    made.mkdir()
    (made / "made.json").write_text(json.dumps({"files": [["low.rlib", "1"]]}), encoding="utf-8")
    store = SimpleNamespace(rlibs={}, key=lambda it: "key")
    store.place = lambda it, _, key: f"{room}/proof-{it.name}-{key}"
    low = SimpleNamespace(name="low", is_built=lambda: False, below=lambda: [])
    high = SimpleNamespace(name="high", is_built=lambda: False, below=lambda: [low])
    found = prove.kept_by_kit(SimpleNamespace(Kept=lambda _: store), [low, high])
    if found != (["low"], ["low", "high"]):
        yield f"kept proofs: {found}"


def faults_of_names():
    """Returns an error if `./check` finds other names that differ by case than it must."""
    found = [it[1:] for it in module("check").pairs(ITEMS)]
    if found != [("Header", "header", "header", "read_header"), ("Kind", "kind", "kind", "read_kind")]:
        yield f"./check finds {found}"


def faults(room):
    """Returns descriptions of the errors."""
    prove = module("prove")
    yield from faults_of_messages(prove)
    yield from faults_of_samples(prove)
    yield from faults_of_rows(prove)
    yield from faults_of_names()
    of_rooms = (
        faults_of_imports, faults_of_waiting, faults_of_progress, faults_of_uncovered,
        faults_of_kept,
    )
    for it in of_rooms:
        yield from it(prove, room)
