#!/usr/bin/env python3
"""Reports errors in documentation comments, and unused imports of proofs:

    python3 scripts/lint.py

The comment of each public item, `///` in a crate's `src/`, must begin with a capital letter or a
code span, end its first paragraph as a sentence, and mention each other name of the item once
("Known as `tag` in nom"). Every public item of the library must have one. README.md may have at
most 700 words outside of its code blocks, and at most 25 nonempty lines of code. A file of specs or
proofs may import only names that it uses, and every file only modules that the facade `winnow` has.
It fails if there is an error.
"""
import pathlib
import re
import sys

sys.path.insert(0, str(pathlib.Path(__file__).resolve().parent))
from registry.common import CRATES, TOP, below_winnow, read  # noqa: E402

ITEM = re.compile(r"\s*(?:pub |final )+(?:const fn|fn|struct|trait|enum|const|type)\s+(\w+)")
ATTRIBUTE = re.compile(r"\s*#\[")
IMPORT = re.compile(r"^use Rattle[^;{}\n]*\{([^}=]*)\}\n", re.M)
PROOFS = "specs", "proofs"
FACADE = re.compile(r"Rattle\.winnow\.specs\.(\w+)")
PASSED_ON = re.compile(r"^pub use Rattle\.([\w.]+?)(?:\.\{(\w+)\}| as\s+(\w+))?$", re.M)
MOST_WORDS, MOST_CODE = 700, 25


def comments(path):
    """Returns the documentation of a file's public items: the number of the first line, the item
    and the comment's lines."""
    comment, start = [], 0
    for number, line in enumerate(read(path).splitlines(), 1):
        text = line.strip()
        if text.startswith("///"):
            start = start if comment else number
            comment.append(text[3:].strip())
        elif item := ITEM.match(line):
            yield (start if comment else number), item[1], comment
            comment = []
        elif not ATTRIBUTE.match(line):
            if comment and (inner := re.match(r"(?:fn|type|const) (\w+)", text)):
                yield start, inner[1], comment
            comment = []


def aliases(text):
    """Returns the other names of an item in its comment."""
    for sentence in re.findall(r"Known as (.*?)\.(?= |$)", text):
        yield from re.findall(r"`(\w+)`", sentence)


def faults(comment):
    """Returns descriptions of the errors of a comment."""
    prose = " ".join(comment).partition("```")[0]
    if not re.match(r"[A-Z]|\[?`", prose):
        yield "begins in mid-sentence"
    paragraph = " ".join(comment[: comment.index("")] if "" in comment else comment)
    if not paragraph.rstrip().endswith((".", ":")):
        yield "does not end its first paragraph as a sentence"
    names = list(aliases(" ".join(comment)))
    for name in sorted({it for it in names if names.count(it) > 1}):
        yield f"names `{name}` twice"


def faults_of_readme():
    """Returns descriptions of README.md's excesses."""
    parts = re.split(r"^```.*$", read(TOP / "README.md"), flags=re.MULTILINE)
    words = len(re.findall(r"\S*\w\S*", "".join(parts[::2])))
    code = len(re.findall(r"\S.*", "".join(parts[1::2])))
    if words > MOST_WORDS:
        yield f"{words} words, more than {MOST_WORDS}"
    if code > MOST_CODE:
        yield f"{code} lines of code, more than {MOST_CODE}"


def unused(path):
    """Returns the names that a file of specs or proofs imports and does not use."""
    text = read(path)
    rest = IMPORT.sub("", text)
    for names in IMPORT.findall(text):
        for name in filter(None, (it.split(" as ")[-1].strip() for it in names.split(","))):
            parts = [re.escape(it) for it in name.split("◌") if it]
            if "◌" not in name:
                parts = [rf"(?<![\w-]){parts[0]}(?![\w-])"]
            if not all(re.search(it, rest) for it in parts):
                yield name


def facade():
    """Returns the names of the modules and of the types that the facade passes on."""
    text = read(CRATES / "winnow/specs/Lib.antt")
    uses = PASSED_ON.findall(text)
    modules = [other or path.rpartition(".")[2] for path, one, other in uses if not one]
    return [*modules, *re.findall(r"^pub mod (\w+)$", text, re.M)], {one for _, one, _ in uses}


def main():
    wrong = 0
    modules, types = facade()
    for name in sorted(it for it in {*modules} if modules.count(it) > 1):
        wrong += 1
        print(f"winnow.specs has two modules {name}")
    folders = [CRATES.glob(f"*/{it}/**/*") for it in ("src", *PROOFS)] + [(TOP / it).glob("**/*") for it in ("tests", "bench")]
    for path in sorted(it for files in folders for it in files if it.suffix in (".rt", ".rs", ".antt")):
        for name in sorted({*FACADE.findall(read(path))} - {*modules} - types):
            wrong += 1
            print(f"{path.relative_to(TOP)}: winnow.specs has no {name}")
    for fault in faults_of_readme():
        wrong += 1
        print(f"README.md: {fault}")
    library = {*below_winnow(), "winnow"}
    for path in sorted(CRATES.glob("*/src/**/*.rt")):
        is_library = path.relative_to(CRATES).parts[0] in library
        for number, item, comment in comments(path):
            found = list(faults(comment)) if comment else ["has no documentation"] * is_library
            for fault in found:
                wrong += 1
                print(f"{path.relative_to(TOP)}:{number}: {item} {fault}")
    for path in sorted(it for part in PROOFS for it in CRATES.glob(f"*/{part}/**/*.antt")):
        for name in unused(path):
            wrong += 1
            print(f"{path.relative_to(TOP)}: it imports {name}, and does not use it")
    print(f"{wrong} errors of documentation and imports")
    return 1 if wrong else 0


if __name__ == "__main__":
    sys.exit(main())
