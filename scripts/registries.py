#!/usr/bin/env python3
"""Generates the lists and tables of the repository's contents.

Run it at the top of the repository, and then `rt fmt` in the crates whose files it prints:

    python3 scripts/registries.py

From the files and the comments of the items it generates each `impls.rt`, each `specs/Lib.antt`,
the marked modules of the crate `winnow`, its specs, the tables of `docs/PARSERS.md` and
`docs/generated/API.md`, the tables of readers in `README.md` and `docs/READERS.md`, the numbers of
definitions in `docs/GUARANTEES.md`, and the picture of the crates, `docs/generated/CRATES.md`. In a
file with a part by hand, that part is above a line that marks the start of the generated one. It
prints the files that it changed.
"""
from registry.api import Reference, write_index
from registry.definitions import write_definitions
from registry.facade import write_facade
from registry.modules import write_modules
from registry.parsers import write_parsers
from registry.picture import write_picture
from registry.readers import write_readers

if __name__ == "__main__":
    write_modules()
    write_facade()
    reference = Reference()
    write_parsers(reference)
    write_index(reference)
    write_readers()
    write_definitions()
    write_picture()
