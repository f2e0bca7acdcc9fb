"""How many definitions a contract cites, directly or indirectly: a table of `docs/GUARANTEES.md`."""
import re

from cited import modules
from citing.logic import Item, names_in, resolve
from citing.sources import Source
from registry.common import CRATES, TOP, below_winnow, read, write

PAGE = TOP / "docs/GUARANTEES.md"
# The row of the definition of each parser of the library.
ALL = "the definitions of all parsers, which it refers to"
DOES = re.compile(r"ghost does = \{(.*?)\};", re.DOTALL)
# The functions by the first cells of their rows, each with its file.
FUNCTIONS = {
    "`Parser::read_outcome`": "winnow_core/src/parser.rt",
    "`longer_inputs_get_partial_results`": "winnow_grammar/src/laws.rt",
    "`Parser::read`": "winnow_core/src/parser.rt",
    "`expression_is_unambiguous`": "winnow_expression_trees/src/laws.rt",
    "CSV: `format_csv::parse_document`": "format_csv/src/lib.rt",
    "CSV: `format_csv_records`, `read_record_into`": "format_csv_records/src/read.rt",
    "CSV: `format_csv_records`, `RecordExtent::advance`": "format_csv_records/src/extent.rt",
    "DNS: `read_message`": "format_dns/src/message.rt",
    "formulas: `format_calculator`, `value`": "format_calculator/src/calc.rt",
    "HTTP/1.1: `body_length`": "format_http/src/bodies/framing.rt",
    "HTTP/1.1: `read_head_into`": "format_http_places/src/read.rt",
    "HTTP/1.1: `Decoder::advance`": "format_http_chunked/src/decoder.rt",
    "INI: `format_ini`, `read_document`": "format_ini/src/documents.rt",
    "INI: `readers::ini::document`": "readers/src/ini/sections.rt",
    "JSON: `format_json::from_bytes`, with its errors": "format_json/src/read.rt",
    "JSON: `format_json_pieces`, `read_value_in_pieces`": "format_json_pieces/src/value.rt",
    "JSON: `what_is_written_reads_back_alike`": "format_json_writer/src/laws.rt",
    "JSON: `format_json_extents`, `read_value`": "format_json_extents/src/value.rt",
    "RESP2, RESP3: `read_reply`": "format_resp/src/read.rt",
    "RESP2, RESP3: `write_reply`": "format_resp/src/write.rt",
    "TOML: `format_toml_document::from_bytes`, with its errors": "format_toml_document/src/read.rt",
}


def contract(path, name):
    """Returns the text of a function from its name to its body."""
    text = re.sub(r"(?m)//.*$", "", read(path))
    found = re.search(rf"(?m)^( *)(?:pub )?(?:final )?fn {name}\b", text)
    rest = text[found.end() :]
    return rest[: re.search(rf"(?m)^{found[1]}\{{", rest).start()]


def all_definitions():
    """Yields the definition of each parser of the library, with its file."""
    for crate in below_winnow():
        for path in sorted((CRATES / crate / "src").rglob("*.rt")):
            yield from ((path, text) for text in DOES.findall(read(path)))


def definitions(clauses, known, homes):
    """Returns the declarations that clauses cite, directly or indirectly. Each is given with its
    file."""
    left = []
    for path, text in clauses:
        scope = {it: resolve(known, *at) for it, at in Source(path).scope.items()}
        left += names_in(text, scope, known)
    found = set(left)
    while left:
        item = left.pop()
        module = homes[item]
        scope = {it: resolve(known, *at) for it, at in module.scope.items()}
        new = {it for it in module.cited(item, scope, known) if isinstance(it, Item)} - found
        found |= new
        left += new
    return found


def write_definitions():
    """Writes the numbers of the table's rows: of definitions, and of their lines, without comments
    and without Rattle's own library."""
    known, text = modules(), read(PAGE)
    homes = {item: module for module in known.values() for item in module.items}
    rows = {ALL: all_definitions()}
    for cell, path in FUNCTIONS.items():
        name = re.search(r"`(?:\w+::)*(\w+)`[^`]*$", cell)[1]
        rows[cell] = [(CRATES / path, contract(CRATES / path, name))]
    for cell, clauses in rows.items():
        found = definitions(clauses, known, homes)
        lines = sum(len("\n".join(it.texts).splitlines()) for it in found)
        row = f"| {cell} | {len(found):,} | {lines:,} |"
        text, count = re.subn(rf"(?m)^\| {re.escape(cell)} \|.*$", row, text)
        if count != 1:
            raise SystemExit(f"{PAGE}: there are {count} rows of {cell}")
    write(PAGE, text)
