"""Writes two tables of the parsers of formats: the short one of README.md, and the one of
docs/READERS.md, with their lengths."""
import re

from .common import CRATES, HEAD, TOP, read, write

FIRST = f"<!-- {HEAD} -->\n"
LAST = "<!-- End. -->\n"
README, COUNTED = TOP / "README.md", TOP / "docs/READERS.md"
# Formats, the crate of the parser, and whether it is made of grammars.
READERS = [
    ("settings, a line each", "examples/settings_file", "yes"),
    ("versions", "examples/version", "yes"),
    ("colors", "examples/color", "yes"),
    ("lines of one letter", "examples/lines", "yes"),
    ("trees of numbers in brackets", "examples/nested", "yes"),
    ("CSV (RFC 4180)", "format_csv", "no"),
    ("CSV in any dialect, also from a reader", "format_csv_records", "no"),
    ("INI files, in any dialect", "format_ini", "no"),
    ("RESP2, RESP3", "format_resp", "yes"),
    ("JSON (RFC 8259): values", "format_json_values", "yes"),
    ("JSON: values from bytes", "format_json_pieces", "no"),
    ("JSON: written", "format_json_writer", "no"),
    ("JSON: extents, nodes", "format_json_extents", "no"),
    ("JSON: by one entry", "format_json", "no"),
    ("TOML 1.0: lines", "format_toml", "yes"),
    ("TOML: trees", "format_toml_tree", "no"),
    ("TOML: by one entry", "format_toml_document", "no"),
    ("TOML: errors", "format_toml_errors", "no"),
    ("TOML: nodes", "format_toml_nodes", "no"),
    ("HTTP/1.1 heads (RFC 9112)", "format_http/heads", "yes"),
    ("HTTP/1.1 lengths of bodies", "format_http/bodies", "no"),
    ("HTTP/1.1 heads of responses", "format_http/responses", "yes"),
    ("HTTP/1.1 chunked bodies, partial input", "format_http_chunked", "no"),
    ("HTTP/1.1 heads, as offsets", "format_http_places", "no"),
    ("DNS messages", "format_dns", "names"),
    ("INI", "readers", "no"),
    ("formulas", "format_calculator", "no"),
]
# The table of README.md: formats, their crates, and the proved properties, in its words.
BRIEF = [
    ("CSV (RFC 4180)", ["format_csv", "format_csv_records"],
        "exactly; first, incremental"),
    ("DNS", ["format_dns"], "messages"),
    ("formulas", ["format_calculator"], "exactly"),
    ("HTTP/1.1 heads, chunked bodies", ["format_http", "format_http_places", "format_http_chunked"],
        "first, incremental"),
    ("INI", ["readers", "format_ini"], "exactly"),
    ("JSON", ["format_json", "format_json_pieces", "format_json_writer"],
        "exactly; first, incremental; written values read back"),
    ("JSON extents", ["format_json_extents"], "where the first value ends"),
    ("RESP2, RESP3", ["format_resp"], "first, incremental"),
    ("TOML 1.0", ["format_toml_document", "format_toml", "format_toml_tree"],
        "exactly"),
]
# What the static library has of a format, if not all of its theorems.
EXPORTED = {
    "CSV (RFC 4180)": "records",
    "DNS": "entries",
    "JSON": "complete texts",
    "RESP2, RESP3": "replies, commands",
}


def lines(place, part, ending):
    """How many lines a part of a crate has, or of one of its modules, of files that are not written
    by a script."""
    crate, _, module = place.partition("/")
    top = CRATES / crate / part
    files = [it for it in sorted(top.rglob(f"*{ending}")) if it.name != "Lib.antt"]
    if module:
        name = module.title().replace("_", "")
        of_module = {module, module + ending, name, name + ending}
        of_module |= {f"{name}Lemmas", f"{name}Lemmas{ending}"}
        files = [it for it in files if it.relative_to(top).parts[0] in of_module]
    return sum(len(read(it).splitlines()) for it in files)


def exported():
    """The crates that the static library for Rust and C has."""
    names = re.search(r"^exported staticlib:(.*)$", read(TOP / "crates.txt"), re.MULTILINE)
    return {*names[1].split()}


def put(path, heads, rows):
    """Writes a table where a document has its marks."""
    before, mark, rest = read(path).partition(FIRST)
    if mark:
        table = [f"| {' | '.join(it)} |\n" for it in (heads, *rows)]
        table.insert(1, "|" + "---|" * len(heads) + "\n")
        write(path, before + mark + "".join(table) + LAST + rest.partition(LAST)[2])


def write_readers():
    """Writes both tables."""
    counted, brief, of_library = [], [], exported()
    for what, crate, is_by_grammars in READERS:
        counts = [
            lines(crate, "src", ".rt"),
            lines(crate, "specs", ".antt"),
            lines(crate, "proofs", ".antt"),
        ]
        link = f"[{crate.replace('/', '::')}](../crates/{crate.partition('/')[0]}/README.md)"
        counted.append([what, link, is_by_grammars, *(f"{it:,}" for it in counts)])
    for what, crates, proved in BRIEF:
        links = ", ".join(f"[{it}](crates/{it}/README.md#theorems)" for it in crates)
        is_exported = EXPORTED.get(what, "yes") if {*crates} & of_library else "no"
        brief.append([what, links, is_exported, proved])
    heads = ["Format", "Crate", "By grammars", "Source", "Specs", "Proofs"]
    put(COUNTED, heads, counted)
    put(README, ["Format", "Theorems", "From Rust and C", "Proved"], brief)
