#!/usr/bin/env python3
"""Generates the files whose items differ only in a number or a name.

Run it at the top of the repository, and then `rt fmt` in the crates that it names:

    python3 scripts/families.py

It generates:

- in `stream_sets`, the sets that are tuples;
- in `winnow_core`, the impls of sequences (tuples of one to eleven);
- in `winnow_comb`, those of choices between one to nine branches, with their laws;
- in `winnow_ascii`, the parsers of character classes;
- in `winnow_integers` and `winnow_binary`, the parsers of integers;
- the claims and the definitions of all of these.

It prints the crates whose files it writes.
"""
from family.choices import write_choices
from family.chosen import write_chosen
from family.classes import write_classes
from family.integers import write_integers
from family.sequences import write_sequences
from family.sets import write_sets

CRATES_OF_PARSERS = "winnow_core winnow_comb winnow_ascii winnow_integers winnow_binary".split()

if __name__ == "__main__":
    write_sets()
    write_sequences()
    write_choices()
    write_classes()
    write_integers()
    write_chosen()
    print("stream_sets grammars parser_definitions", *CRATES_OF_PARSERS)
