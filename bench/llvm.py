"""Compiles a crate's exports without proofs, for `unproved.py` and `bindings/build --unproved`.

By the functions of `scripts/run`, `rt try` compiles a program that calls each export, and its LLVM module
is saved. The run-time checks of `rt try` are removed from the module, and the attributes that it omits
are added. Then the toolchain's clang compiles it with the flags of a proved library.
"""
import pathlib
import re
import subprocess
import sys

sys.path.insert(0, str(pathlib.Path(__file__).resolve().parent.parent / "scripts"))
from inlined import Inlined  # noqa: E402
from registry.common import TOP  # noqa: E402
from toolchain import loaded  # noqa: E402

ADDED = re.compile(
    r'  call void @"rattle-(?:llvm-checks|try)::[^"]*"\('
    r"|  call void @llvm\.memset\.p0\.i64\(ptr %r\d+, i8 -86, "
)
# How `rt try`, whose code runs on every processor, shuffles lanes: one by one.
MOVED = re.compile(
    r"  (%r\d+) = load <16 x i8>, .*\n  (%r\d+) = load <16 x i8>, .*\n"
    r"  %r\d+ = and <16 x i8> \2, splat \(i8 15\)\n"
    r"(?:  %r\d+ = (?:extractelement|zext|add|mul|getelementptr|load i8|insertelement)\b.*\n)+"
    r"  %r\d+ = icmp sge <16 x i8> \2, .*\n  (%r\d+) = select .*\n"
)
MOVE = "@llvm.x86.ssse3.pshuf.b.128"
DEFINED = re.compile(r'define (\w+ )?(.*?)@(?:"([^"]*)"|(\w+))\(')
GROUPS = {"always": "#90", "never": "#91", "": "#92"}
KINDS = {"always": "alwaysinline ", "never": "noinline ", "": ""}
ATTRIBUTES = 'nounwind "probe-stack"="inline-asm" "stack-probe-size"="3072" "target-cpu"="{cpu}"'


def as_proved(lines, inlined):
    """Yields the lines of a module without the checks of `rt try`, and with function attributes."""
    for line in lines:
        if ADDED.match(line):
            continue
        if line.startswith("attributes "):
            line = line.replace(" sanitize_address", " nounwind", "nounwind" not in line)
            line = line.replace(" sanitize_address", "").replace(' "frame-pointer"="all"', "")
        elif defined := DEFINED.match(line):
            name = defined[3] or defined[4]
            if name == "main":
                line = line.replace("define ", "define internal ").replace("@main(", '@"a program"(')
            line = line.replace(" #0 {", f" {GROUPS[inlined.of(name)]} {{")
        yield line


def with_moves(text):
    """Returns the module with lanes shuffled by one instruction, as in x86-64-v2 and later."""

    def moved(found):
        lanes, places, to = found.groups()
        loads = "".join(found[0].splitlines(keepends=True)[:2])
        given = f"<16 x i8> {lanes}, <16 x i8> {places}"
        return f"{loads}  {to} = call <16 x i8> {MOVE}({given})\n"

    return MOVED.sub(moved, text) + f"declare <16 x i8> {MOVE}(<16 x i8>, <16 x i8>)\n"


def compiled(room, cpu, crate, named):
    """Compiles a crate in `room` into `room/libCRATE.a`, from its program `CRATE_program`, which calls
    each export. `named` has the LLVM functions with the public names of the exports."""
    run = loaded("run_script", TOP / "scripts/run")
    lib = run.toolchain()
    program = next(it for it in lib.crates_below(str(room)) if it.name == f"{crate}_program")
    kept, wrong = run.keep_module(lib, program, room)
    kit, text = pathlib.Path(lib.KIT), room / "as_proved.ll"
    lines = run.as_text(lib, kept or sys.exit(wrong)).splitlines(keepends=True)
    crates = [(it.name, it / "src") for it in (room / "crates").iterdir()]
    crates += [(it.name, it / "src") for it in (kit / "rattle").iterdir()]
    made = [*as_proved(lines, Inlined(crates)), *named]
    for said, group in GROUPS.items():
        made.append(f"attributes {group} = {{ {KINDS[said]}{ATTRIBUTES.format(cpu=cpu)} }}\n")
    text.write_text(with_moves("".join(made)), encoding="utf-8")
    compiled_to, library = room / f"{crate}.o", room / f"lib{crate}.a"
    run.compile_module(lib, text, compiled_to, cpu)
    library.unlink(missing_ok=True)
    subprocess.run([kit / "toolchain/bin/llvm-ar", "rcs", library, compiled_to], check=True)
