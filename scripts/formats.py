"""The formats whose parsers `scripts/vendor --with` copies, and the cost of their proofs."""
import re

from laid import library
from registry.common import TOP, read

# The crates of each format. Their dependencies are in `crates.txt`.
FORMATS = {
    "calculator": ["format_calculator"],
    "csv": ["format_csv", "format_csv_records"],
    "dns": ["format_dns"],
    "http": ["format_http", "format_http_chunked", "format_http_places"],
    "ini": ["readers", "format_ini"],
    "json": ["format_json"],
    "json_extents": ["format_json_extents"],
    "resp": ["format_resp"],
    "toml": [
        "format_toml_document", "format_toml_errors", "format_toml", "format_toml_tree",
        "format_toml_nodes",
    ],
}


def lines_of(formats):
    """Returns the lines of `crates.txt` for the crates of formats and their dependencies above the
    library, dependencies first."""
    below = library()
    found = library(*(crate for it in formats for crate in FORMATS[it]))
    return {name: line for name, line in found.items() if name not in below}


def seconds():
    """Returns the CPU seconds of each crate's proof, from CONTRIBUTING.md."""
    rows = re.findall(r"`(\w+)` \| (\d+) \|", read(TOP / "CONTRIBUTING.md"))
    return {name: int(took) for name, took in rows}


def minutes_of(formats):
    """Returns the CPU minutes of the proofs of the crates of formats, without the library's."""
    known = seconds()
    return round(sum(known[it] for it in lines_of(formats)) / 60)
