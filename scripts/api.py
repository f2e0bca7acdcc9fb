#!/usr/bin/env python3
"""Generates the API reference, `docs/api/`: each public item of the crate `winnow`, by module.

Run it at the top of the repository, after `rt fmt`:

    python3 scripts/api.py

These pages are not in git: `scripts/release` generates them, to be published with the release. The
index of all items, `docs/generated/API.md`, is in git; `scripts/registries.py` generates it. This
script prints the pages that it changed, and each link of a comment without a target.
"""
from registry.api import Reference, write_api

if __name__ == "__main__":
    write_api(Reference())
