"""Reads the exports of the crate `exported`, for scripts/header.py."""
import dataclasses
import pathlib
import re

TOP = pathlib.Path(__file__).resolve().parent.parent
SOURCE = TOP / "crates/exported/src"
EXPORT = re.compile(r'pub extern "C" fn exported_(\w+)\(\s*(.*?)\s*\)\s*->\s*u32\b', re.DOTALL)
CONSTANT = re.compile(r"pub const (\w+): (u32|usize) = (\d+);")
TAKEN = re.compile(r"pub use (\w+)::(\w+)::\{?([\w,\s]+)\}?;")
STRUCT = re.compile(r"pub struct (\w+)(?:<'\w+>)? \{\n(.*?)\n\}", re.DOTALL)
# The constants that are cases of an enum in C: the prefix of their names, the enum's name and
# description, and the structs with a field of its values, followed by the field's name.
KINDS = {
    "JSON_ERROR_": ("json_error", "The errors of JSON texts.", ("JsonDiagnostic", "error")),
    "JSON_": ("json_kind", "The kinds of JSON items.", ("JsonItem", "JsonNode", "kind")),
    "RESP_": ("resp_kind", "The kinds of Redis replies.", ("RespValue", "RespNode", "kind")),
    "TOML_ERROR_": ("toml_error", "The errors of TOML documents.", ("TomlResult", "error")),
    "TOML_": ("toml_kind", "The kinds of TOML nodes.", ("TomlValue", "TomlDateTimeParts", "kind")),
    "CHUNKED_ERROR_": ("chunked_error", "The errors of chunked bodies.", ("ChunkedStep", "error")),
    "CHUNKED_": ("chunked_kind", "The parts of chunked bodies.", ("ChunkedStep", "kind")),
    "HTTP_BODY_": ("http_body_kind", "How the length of a body is determined.", ("HttpBody", "kind")),
    "HTTP_HEAD_ERROR_": ("http_head_error", "Why a byte of a head is invalid.",
                         ("HttpRequest", "HttpResponse", "HttpFields", "error")),
    "HTTP_ERROR_": ("http_error", "Why an HTTP message must be rejected.", ("HttpBody", "error")),
    "CSV_": ("csv_line_end", "The end of a record of comma-separated values.", ("CsvDialect", "line_ends")),
    "INI_ERROR_": ("ini_error", "The errors of INI lines.", ("IniEntry", "error")),
    "INI_DIALECT_": ("ini_dialect", "The dialects of INI: flags, whose sum is a dialect, and three dialects.", None),
    "DNS_ERROR_": ("dns_error", "Why a part of a DNS message is invalid.", ("DnsFault", "error")),
    "INI_": ("ini_kind", "The kinds of INI entries.", ("IniEntry", "kind")),
}
ENUMS = {(struct, fields[-1]): name
         for name, _, fields in KINDS.values() if fields for struct in fields[:-1]}


@dataclasses.dataclass
class Item:
    """A constant, a struct or a function: its name, its documentation, and its value, fields or
    parameters. Types of fields and parameters are Rust's."""

    name: str
    words: list
    parts: list


def pairs(text):
    """Returns the names and types of a list of parameters."""
    return [tuple(part.strip().split(": ", 1)) for part in text.split(",\n" if "\n" in text else ",")
            if part.strip()]


def fields(text):
    """Returns the fields of a struct with their documentation. A slice has the type `&[u8]`."""
    words = []
    for line in text.splitlines():
        line = line.strip()
        if line.startswith("///"):
            words.append(line[3:].strip())
        elif found := re.match(r"pub (\w+): (\w+|&'\w+ \[u8\]),", line):
            yield Item(found[1], words, ["&[u8]" if found[2].startswith("&") else found[2]])
            words = []


def documented(text):
    """Returns the items of a file: the kind, the match, and the documentation."""
    words = []
    lines = text.splitlines(keepends=True)
    for number, line in enumerate(lines):
        rest = "".join(lines[number:])
        if line.startswith("///"):
            words.append(line[3:].strip())
        elif line.startswith("#"):
            continue
        else:
            for kind, form in (("code", CONSTANT), ("struct", STRUCT), ("export", EXPORT)):
                if found := form.match(rest):
                    yield kind, found, words
            if found := TAKEN.match(rest):
                yield from taken(*found.groups())
            words = []


def taken(crate, module, names):
    """Returns the named structs and constants of a module of a crate below `exported`, in the order
    of the module."""
    text = (TOP / f"crates/{crate}/src/{module}.rt").read_text(encoding="utf-8")
    for kind, found, words in documented(text):
        if kind in ("code", "struct") and found[1] in re.findall(r"\w+", names):
            yield kind, found, words[:words.index("```") - 1] if "```" in words else words


def modules(path):
    """Returns the modules that a file declares, and their submodules, as paths."""
    inside = path.parent if path.name == "lib.rt" else path.with_suffix("")
    for name in re.findall(r"pub mod (\w+);", path.read_text(encoding="utf-8")):
        yield str((inside / name).relative_to(SOURCE))
        yield from modules(inside / f"{name}.rt")


def kind(name):
    """Returns the prefix of the enum that a constant belongs to, or None."""
    return next((it for it in KINDS if name.startswith(it)), None)


def snake(name):
    """Returns the name of a struct in C."""
    return "pergidau_" + re.sub(r"(?<!^)([A-Z])", r"_\1", name).lower()


def items():
    """Returns the codes, the other constants, the structs and the exports, in the order of their
    files."""
    codes, constants, structs, exports = [], [], [], []
    names = list(modules(SOURCE / "lib.rt"))
    for name in ["code", "span", *(it for it in names if it not in ("code", "span"))]:
        for kind, found, words in documented((SOURCE / f"{name}.rt").read_text(encoding="utf-8")):
            if kind == "code":
                put = codes if name == "code" else constants
                put.append(Item(found[1], words, [found[3], found[2]]))
            elif kind == "struct":
                made = Item(found[1], words, list(fields(found[2])))
                of_name = [it for it in structs if it.name == made.name]
                if any([part.parts for part in it.parts] != [part.parts for part in made.parts]
                       for it in of_name):
                    raise SystemExit(f"two structs {made.name} differ")
                structs += [] if of_name else [made]
            else:
                made = [it for it in pairs(found[2]) if it[1].rstrip(",") != "Global"]
                exports.append(Item(found[1], words, [(n, t.rstrip(",")) for n, t in made]))
    # In C++ a struct with the name of a function needs the keyword `struct`.
    for name in {snake(it.name) for it in structs} & {f"pergidau_{it.name}" for it in exports}:
        raise SystemExit(f"a struct and a function have the name {name}")
    return codes, constants, structs, exports
