#!/usr/bin/env python3
"""Names the errors of the pages of crates:

    python3 scripts/pages.py

Each crate of `crates.txt` has a page, `crates/NAME/README.md`, of at most 2,000 words: its name as
the title, what it is, each crate that it depends on, where to begin, and its theorems. ARCHITECTURE.md
or READERS.md links each page. The links of the pages, of the documents in `docs/`, `bindings/` and `edits/` and
of those at the top lead to existing files and headings. Each row of DIFFERENCES.md has a reason, and
its test exists; each test of `tests/differences` has a row. It fails if any of this is not so.
"""
import pathlib
import re
import sys

sys.path.insert(0, str(pathlib.Path(__file__).resolve().parent))
from registry.common import CRATES, TOP, crates, read  # noqa: E402

DIFFERENCES = TOP / "docs/DIFFERENCES.md"
# The end of a row there: its reason and its test.
ROW = re.compile(r" \| (?:proof|kit|memory|code|open) \| (?:`(\w+)` )?\|$")
MOST_WORDS = 2000
LISTS = [TOP / "docs/ARCHITECTURE.md", TOP / "docs/READERS.md"]
# The text of the page of `winnow`, instead of a long list.
ALL = "Depends on every crate of the library."
LINK = re.compile(r"\]\(([^()\s]+)\)")


def prose(path):
    """The lines of a document outside of its blocks of code, with their numbers."""
    is_code = False
    for number, line in enumerate(read(path).splitlines(), 1):
        if line.lstrip().startswith("```"):
            is_code = not is_code
        elif not is_code:
            yield number, line


def anchors(path):
    """The headings of a document, as links name them."""
    found = {}
    for _, line in prose(path):
        if heading := re.match(r"#+ (.*)", line):
            words = re.sub(r"\[([^]]*)\]\([^)]*\)", r"\1", heading[1]).strip().lower()
            name = re.sub(r"[^\w -]", "", words).replace(" ", "-")
            found[name] = found.get(name, -1) + 1
    numbered = ((name, it) for name, most in found.items() for it in range(most + 1))
    return {f"{name}-{it}" if it else name for name, it in numbered}


def faults_of_links(path):
    """The broken links of a document."""
    for number, line in prose(path):
        for link in LINK.findall(re.sub(r"`[^`]*`", "", line)):
            name, _, anchor = link.partition("#")
            there = path.parent / name if name else path
            if ":" in name:
                continue
            if not there.exists():
                yield f"{number}: there is no {name}"
            elif anchor and there.suffix == ".md" and anchor not in anchors(there):
                yield f"{number}: {there.name} has no heading #{anchor}"


def faults_of_page(name, others):
    """The errors of the page of a crate."""
    page = CRATES / name / "README.md"
    if not page.is_file():
        yield "1: it is not there"
        return
    text = read(page)
    lines = text.splitlines()
    if len(text.split()) > MOST_WORDS:
        yield f"1: it has {len(text.split())} words, and at most {MOST_WORDS} are allowed"
    if lines[0] != f"# {name}":
        yield f"1: the title is not {name}"
    for part in ("Depends on", "Begin with:", "## Theorems"):
        if not any(line.startswith(part) for line in lines):
            yield f"1: no line begins with {part.strip()}"
    lacking = [] if ALL in lines else [it for it in others if f"`{it}`" not in text]
    if lacking:
        yield f"1: it does not say that the crate depends on {', '.join(lacking)}"
    if not any(f"](../crates/{name}/README.md)" in read(it) for it in LISTS):
        yield "1: neither docs/ARCHITECTURE.md nor docs/READERS.md links it"


def faults_of_differences():
    """Returns the rows of DIFFERENCES.md without a reason, or whose test does not exist, and the
    tests that no row names."""
    text = "\n".join(read(it) for it in sorted((TOP / "tests/differences").glob("*.rs")))
    tests, named = {*re.findall(r"#\[test\]\nfn (\w+)", text)}, set()
    for number, line in enumerate(read(DIFFERENCES).splitlines(), 1):
        if not line.startswith("| ") or line.startswith("| winnow |"):
            continue
        cells = ROW.search(line)
        if not cells:
            yield f"{number}: the row has no reason"
        elif cells[1]:
            named.add(cells[1])
            if cells[1] not in tests:
                yield f"{number}: tests/differences has no test {cells[1]}"
    for name in sorted(tests - named):
        yield f"1: no row names the test {name}"


def main():
    folders = [TOP / it for it in (".", "docs", "docs/generated", "bindings", "edits")]
    documents = [it for folder in folders for it in sorted(folder.glob("*.md"))]
    found = []
    for name, others in crates().items():
        page = CRATES / name / "README.md"
        found += [(page, it) for it in faults_of_page(name, others)]
        documents += [page] if page.is_file() else []
    for path in documents:
        found += [(path, it) for it in faults_of_links(path)]
    found += [(DIFFERENCES, it) for it in faults_of_differences()]
    for path, fault in found:
        print(f"{path.relative_to(TOP)}:{fault}")
    print(f"{len(found)} faults of the pages of crates and of links")
    return 1 if found else 0


if __name__ == "__main__":
    sys.exit(main())
