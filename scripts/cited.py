#!/usr/bin/env python3
"""Lists the declarations that nothing cites:

    python3 scripts/cited.py

It follows citations from the roots, and prints FILE:LINE and the name of each declaration of
`specs/` and `proofs/` that it does not reach, and of each such law. The roots are the sources, with
their clauses and the names in `using(..)`; the answers and invariants of their functions; and the
names in `scripts/cited.allow`, each with a reason. A law, a function of a file of laws, is a root
if code calls it, or if README.md, `docs/GUARANTEES.md` or the page of its crate names it (`*` in a
name there is for any letters); it counts both. Imports and the re-exports of the crate `winnow` are
not citations. A lemma of a ruleset is cited if the ruleset is. It fails if a declaration is not
cited, or if `cited.allow` has a name that is cited or does not exist.
"""
import collections
import fnmatch
import re
import sys

from citing.logic import Module, resolve
from citing.sources import Source
from registry.common import CRATES, TOP, read

ALLOWED = TOP / "scripts/cited.allow"
CODE = ("bench", "bindings", "tests")


def modules():
    """Returns the files of definitions and lemmas, by crate and path."""
    found = {}
    for part in ("specs", "proofs"):
        for path in sorted(CRATES.glob(f"*/{part}/**/*.antt")):
            module = Module(path)
            found[module.name] = module
    return found


def sources():
    """Returns the files of code of the crates, the tests, the benchmarks and the bindings."""
    paths = sorted(CRATES.glob("*/src/**/*.rt"))
    for folder in CODE:
        paths += sorted(it for it in (TOP / folder).rglob("*.r[ts]") if "out" not in it.parts)
    return [Source(it) for it in paths]


def graph(known, code):
    """Returns the citations of each declaration, and the roots."""
    cites, roots = collections.defaultdict(set), []
    laws = {path: law for source in code for path, law in source.laws.items()}
    for module in known.values():
        scope = {name: resolve(known, *at) for name, at in module.scope.items()}
        law = laws.get(module.function)
        for item in module.items:
            cites[item] |= module.cited(item, scope, known)
            if item.is_goal and law:
                cites[law].add(item)
            elif item.is_goal:
                roots.append(item)
    for source in code:
        scope = {name: resolve(known, *at) for name, at in source.scope.items()}
        for item in source.items:
            cites[item] |= source.cited(item, scope, known, laws)
            roots += [] if item.is_law else [item]
    return cites, roots


def reached(cites, roots):
    """Returns the items that are reachable from the roots, including the roots."""
    found, left = set(roots), list(roots)
    while left:
        for item in cites[left.pop()] - found:
            found.add(item)
            left.append(item)
    return found


def is_promised(law):
    """Returns whether a page names the law: README.md, `docs/GUARANTEES.md`, or that of its crate."""
    pages = TOP / "README.md", TOP / "docs/GUARANTEES.md", CRATES / law.path.split("::")[0] / "README.md"
    names = re.findall(r"`([\w:*]*\w[\w:*]*)`", " ".join(read(it) for it in pages))
    return any(fnmatch.fnmatchcase(law.path, f"*::{name}") for name in names)


def allowed():
    """Returns the allowed names with their reasons."""
    for line in read(ALLOWED).splitlines():
        name, _, reason = line.partition(": ")
        if reason and not line.startswith("#"):
            yield name.strip(), reason.strip()


def fits(name, path):
    """Returns whether an allowed name is that of a declaration or of a module that contains it."""
    return path == name or (name.endswith((".*", "::*")) and path.startswith(name[:-1]))


def main():
    known, code = modules(), sources()
    cites, roots = graph(known, code)
    items = [it for file in [*known.values(), *code] for it in file.items]
    laws = [it for it in items if it.is_law]
    called = reached(cites, roots)
    cited = reached(cites, [*roots, *filter(is_promised, laws)])
    wrong, kept = [], []
    for name, _ in allowed():
        found = [it for it in items if it not in cited and it.is_declared and fits(name, it.path)]
        wrong += [] if found else [f"scripts/cited.allow: {name} does not exist, or is cited"]
        kept += found
    cited |= reached(cites, kept)
    for item in items:
        if item not in cited and item.is_declared:
            wrong.append(f"{item.file.relative_to(TOP)}:{item.line} {item.name}")
    print("\n".join([*wrong, f"{len(wrong)} of {len(items)} are not cited"]))
    print(f"{len(called & set(laws))} of {len(laws)} laws are called")
    return 1 if wrong else 0


if __name__ == "__main__":
    sys.exit(main())
