"""The crate `winnow`: the library under the names of winnow's modules."""
import re
import textwrap

from registry.common import CRATES, WIDTH, below_winnow, by_hand, has_mark, imports
from registry.common import in_order, items_of, read, write

FACADE = CRATES / "winnow"
# The names of parsers that are also those of types.
TYPES = {"bool", "i8", "u8"}
# The crate whose modules are exported as `NameDefinition` where a crate above has a module `Name`.
DEFINITIONS = "parser_definitions"
# The module of lemmas about a crate's own parsers; that of the core is also for parsers of callers.
LEMMAS, CORE = "Covers", "winnow_core"
# The modules whose items are in other modules, with their paths.
PLACES = {"error": ("stream_errors", "*"), "laws": ("", "laws/**/*")}


def modules_of(crate, module):
    """The files of a crate whose items are in a module of the crate `winnow`, by module name."""
    src = CRATES / crate / "src"
    only, pattern = PLACES.get(module, ("", ""))
    files = [src / f"{module}.rt"] if not only else []
    if pattern and only in ("", crate):
        files += src.glob(f"{pattern}.rt")
    for file in sorted(files):
        if file.is_file() and file.name != "lib.rt":
            yield "::".join(file.relative_to(src).with_suffix("").parts), file


def write_module(path):
    """Writes a module: its handwritten part, and the items of its name in each crate."""
    module = "/".join(path.relative_to(FACADE / "src").with_suffix("").parts)
    text = by_hand(path, "//")
    known = set(re.findall(r"\w+", " ".join(re.findall(r"^pub use [^;]*;", text, re.MULTILINE))))
    lines = []
    for crate in sorted(below_winnow()):
        for name, file in modules_of(crate, module):
            items = [it for it in items_of(file) if it not in known]
            if items:
                lines.append(imports(f"{crate}::{name}", items))
    write(path, text + "".join(sorted(lines)))


def write_parsers():
    """Writes the module of the parsers without arguments: each unit struct in `impls`, under the
    name of its function. A name that is also a type's, as `u8`, is left out."""
    path, found = FACADE / "src/parsers.rt", {}
    for crate in sorted(below_winnow()):
        for file in sorted((CRATES / crate / "src").glob("*/impls/*.rt"), key=lambda it: in_order(it.stem)):
            struct = re.search(r"^pub struct (\w+);", read(file), re.MULTILINE)
            if struct and file.stem not in TYPES:
                module = f"{crate}::{file.parent.parent.name}::impls"
                found.setdefault(module, []).append(f"{struct[1]} as {file.stem}")
    lines = [imports(module, names) for module, names in found.items()]
    write(path, by_hand(path, "//") + "".join(lines))


def title(crate):
    """The first sentence of a crate's documentation."""
    about = " ".join(re.findall(r"^//! (.*)$", read(CRATES / crate / "src/lib.rt"), re.MULTILINE))
    return re.match(r".*?\.(?= |$)", about)[0]


def specs_of(crate):
    """The modules of a crate's specs."""
    names = {it.stem for it in (CRATES / crate / "specs").glob("*.antt")}
    return sorted(names - {"Lib", LEMMAS if crate != CORE else ""})


def write_specs():
    """Writes the specs that clauses cite: each module of the crates' specs, except those that the
    handwritten part names."""
    path = FACADE / "specs/Lib.antt"
    text = by_hand(path, "--")
    lines, modules = [], {crate: specs_of(crate) for crate in below_winnow()}
    others = {name for crate, names in modules.items() if crate != DEFINITIONS for name in names}
    for crate, names in modules.items():
        uses = []
        for name in names:
            module = f"Rattle.{crate}.specs.{name}"
            if not re.search(rf"{re.escape(module)}(?![\w.])", text):
                also = f" as {name}Definition" if crate == DEFINITIONS and name in others else ""
                uses.append(f"pub use {module}{also}\n")
        about = textwrap.wrap(title(crate), WIDTH - 3)
        lines += [f"-- {it}\n" for it in about if uses] + uses
    write(path, text + "".join(lines))


def write_facade():
    for path in sorted((FACADE / "src").rglob("*.rt")):
        if has_mark(path) and path.stem != "parsers":
            write_module(path)
    write_parsers()
    write_specs()
