"""Compiles `exported` without proofs, for `bindings/build --unproved`.

It builds a program that calls each export with `rt try`, like `bench/unproved.py`. The code is similar
to that of a proved build, but may differ.
"""
import pathlib
import re
import shutil
import sys
import tempfile

TOP = pathlib.Path(__file__).resolve().parent.parent
sys.path[:0] = [str(TOP / "scripts"), str(TOP / "bench")]
from exports import SOURCE, items  # noqa: E402
from header import kind_of  # noqa: E402
from laid import copy_crate  # noqa: E402
from llvm import compiled  # noqa: E402
from registry import common  # noqa: E402

CPU = "x86-64-v2"
PROGRAM = """//! Calls each export.
#![tactic(auto)]
use std::io;
use std::io::Read;

fn main(rt: HostRuntime) -> io::Result<()> {{
    let mut bytes = Vec::new(rt.alloc());
    rt.stdin().read_to_end(&mut bytes)?;
    let mut sum = 0;
{calls}
    println!(rt; "{{}}", sum)
}}
"""
LLVM = {"u8": "i8", "u32": "i32", "u64": "i64", "i64": "i64", "usize": "i64"}


def below(crate):
    """Returns a crate and its dependencies, each with the crates that it names."""
    known = common.crates()
    found = common.below(crate, known)
    return {name: on for name, on in known.items() if name in found}


def taken(text):
    """Returns the structs that a module re-exports from a dependency of `exported`."""
    lists = re.findall(r"^pub use \w+::\w+::\{?([\w,\s]+)\}?;", text, re.MULTILINE)
    return [name for names in lists for name in re.findall(r"\w+", names)]


def modules():
    """Returns the modules of exports and structs by name. Re-exported structs are also listed by the
    pair of module and name."""
    found = {}
    for file in sorted(SOURCE.glob("**/*.rt")):
        text = file.read_text(encoding="utf-8")
        module = "::".join(file.relative_to(SOURCE).with_suffix("").parts)
        for name in taken(text):
            found.setdefault(name, module)
            found[module, name] = module
        found |= {word: module for word in text.replace("(", " ").split() if word.startswith("exported_")}
        found |= {name: module for name in re.findall(r"^pub struct (\w+)", text, re.MULTILINE)}
    return found


def nothing(name, structs, where, module):
    """Returns an expression of a type with all numbers 0, for use in this module."""
    if name == "&[u8]":
        return "&bytes"
    if name not in structs:
        return {"bool": "false", "f64": "0.0"}.get(name, "0")
    parts = [(it.name, nothing(it.parts[0], structs, where, module)) for it in structs[name].parts]
    inside = ", ".join(f"{part}: {value}" for part, value in parts)
    return f"exported::{where.get((module, name), where[name])}::{name} {{ {inside} }}"


def call(export, where, structs):
    """Returns the lines that call an export."""
    lines, given = [], []
    module = where[f"exported_{export.name}"]
    source = (SOURCE / f"{module.replace('::', '/')}.rt").read_text(encoding="utf-8")
    if f"fn exported_{export.name}(alloc: Global" in source or f"fn exported_{export.name}(\n    alloc: Global" in source:
        given.append("rt.alloc()")
    for name, written in export.parts:
        kind, inside = kind_of(written)
        local = f"{export.name}_{name}"
        if kind == "read" and inside == "u8":
            given.append("&bytes")
        elif kind == "read":
            lines.append(f"    let {local} = [{nothing(inside, structs, where, module)}; 2];")
            given.append(f"&{local}")
        elif kind == "pass":
            given.append("1")
        elif kind == "in":
            lines.append(f"    let {local} = {nothing(inside, structs, where, module)};")
            given.append(f"&{local}")
        elif kind == "write":
            lines.append(f"    let mut {local} = [{nothing(inside, structs, where, module)}; 2];")
            given.append(f"&mut {local}")
        else:
            lines.append(f"    let mut {local} = {nothing(inside, structs, where, module)};")
            given.append(f"&mut {local}")
    lines.append(f"    sum = sum ^ exported::{module}::exported_{export.name}({', '.join(given)});")
    return "\n".join(lines)


def wrapper(export, where):
    """Returns the LLVM function that calls an export, under its public name."""
    kinds = []
    for _, written in export.parts:
        kind, inside = kind_of(written)
        kinds += {"read": ["ptr", "i64"], "write": ["ptr", "i64"], "in": ["ptr"], "out": ["ptr"]}.get(
            kind) or [LLVM[inside]]
    given = ", ".join(f"{kind} %a{at}" for at, kind in enumerate(kinds))
    name = f"exported_{export.name}"
    called = f'@"exported::{where}::{name}"({given})'
    return f"define i32 @{name}({given}) #92 {{\n  %r = call i32 {called}\n  ret i32 %r\n}}\n"


def lay(room, exports, structs, where):
    """Copies the crates into a folder, and creates the program there."""
    lines = below("exported")
    for name in lines:
        copy_crate(name, room / "crates")
    named = [f"{name}: {' '.join(on)}" for name, on in lines.items()]
    named.append("exported_program: exported")
    (room / "crates.txt").write_text("\n".join(named) + "\n", encoding="utf-8")
    shutil.copyfile(TOP / "HANDLES", room / "HANDLES")
    source = room / "crates/exported_program/src"
    source.mkdir(parents=True)
    text = PROGRAM.format(calls="\n".join(call(it, where, structs) for it in exports))
    (source / "main.rt").write_text(text, encoding="utf-8")


def make(archive):
    """Compiles the exports into this archive."""
    _, _, structs, exports = items()
    structs, where = {it.name: it for it in structs}, modules()
    with tempfile.TemporaryDirectory(prefix="unproved-") as made:
        room = pathlib.Path(made)
        lay(room, exports, structs, where)
        named = [wrapper(it, where[f"exported_{it.name}"]) for it in exports]
        compiled(room, CPU, "exported", named)
        archive.parent.mkdir(parents=True, exist_ok=True)
        shutil.copyfile(room / "libexported.a", archive)
