"""Creates the crate `format_NAME` for `./x new reader NAME`: the parser of a format.

The model is `examples::settings_file`, the parser of docs/FIRST_PROOF.md, with its specs, proofs,
tests and edits under other names. So the new crate is proved unchanged. The script also adds its
lines to `crates.txt`, CONTRIBUTING and the lists of `scripts/`, and writes a note.
"""
import re
import subprocess
import sys

from formats import FORMATS
from registry.common import CRATES, HEAD, TOP, read
from registry.edits import FOLDER, Written, edits_of, text_of
from vendor_beside import taken_names
from wrap import wrapped

MODEL = CRATES / "examples"
# The files of the model, and those of the new crate.
COPIES = {
    "src/settings_file.rt": "src/reader.rt",
    "specs/SettingsFile/Settings.antt": "specs/Settings.antt",
    "specs/SettingsFile/Read.antt": "specs/SettingsRead.antt",
    "proofs/settings_file/settings/Answers.antt": "proofs/reader/settings/Answers.antt",
    "proofs/settings_file/parse_settings/Answers.antt": "proofs/reader/parse_file/Answers.antt",
}
EDITS = ("ends_keys_at_a_colon", "wants_a_value")
TEST = TOP / "tests/example_first_proofs/settings_file.rs"
# The names of the model, and those in the new crate, whose name is `FORMAT`.
RENAMED = {
    "examples.specs.SettingsFile.Settings.": "FORMAT.specs.Settings.",
    "examples.specs.SettingsFile.Read.": "FORMAT.specs.SettingsRead.",
    "examples.proofs.settings_file.": "FORMAT.proofs.reader.",
    "examples::settings_file::": "FORMAT::reader::",
    "src/settings_file.rt": "src/reader.rt",
    "parse_settings": "parse_file",
    ": the first proof of `docs/FIRST_PROOF.md`.": ".",
}
WHAT = "lines of settings such as `width=12`"
ROOT = """//! A parser of lines of settings such as `width=12`.
#![tactic(auto)]

pub mod reader;
"""
PAGE = """# {crate}

A parser of {what}.

Depends on `winnow`.

Begin with:

- [specs/Settings.antt](specs/Settings.antt): the definition of the format
- [src/reader.rt](src/reader.rt): `parse_file`

## Theorems

- **`reader::parse_file`** returns `Ok` if and only if all bytes are settings, with their keys and values, unless an allocation fails. Clause: its `ensures` (`IsTextOf` of [`Settings`](specs/Settings.antt)).
"""
# The CPU seconds of its proof.
SECONDS = 30
# Lines in other files: the file, the text that they are inserted before, and the lines.
LINES = [
    (TOP / "crates.txt", "# The readers.\n", "# {What}.\n{crate}: winnow\n"),
    (
        TOP / "scripts/registry/readers.py",
        '    ("INI", "readers", ',
        '    ("{name}: settings, a line each", "{crate}", "yes"),\n',
    ),
    (TOP / "scripts/formats.py", "}}\n\n\ndef lines_of", '    "{name}": ["{crate}"],\n'),
]
# The table of CONTRIBUTING.md, with two crates per row, and its last row.
COSTS = TOP / "CONTRIBUTING.md"
HALF = re.compile(r"^(\| `\w+` \| \d+ \|) \| \|\n", re.MULTILINE)
FULL = re.compile(r"(?:^\| `\w+` \| \d+ \| `\w+` \| \d+ \|\n)+", re.MULTILINE)
NEXT = """{crate} is created. Now change, in this order (docs/FIRST_PROOF.md explains the steps):
  {at}/specs/Settings.antt: the definition of the format
  {at}/src/reader.rt: the sets and the parser, with its documentation
  {at}/specs/SettingsRead.antt: the grammar of each part, with a lemma
  tests/{crate}/lib.rs: its results, with expected values from another source
  {at}/proofs: the two answers
  edits/{crate}.txt: a wrong line for each definition
  {at}/README.md: the page of the crate, with its theorem
  scripts/registry/readers.py, crates.txt, changes/{crate}.md: the format
  CONTRIBUTING.md: the cost of its proof
`./x quick` reports what is missing; `rt check` in {at} proves it."""


def fault_of_name(name):
    """Returns why a format cannot have a name, or an empty text."""
    if not re.fullmatch(r"[a-z][a-z0-9]*(?:_[a-z0-9]+)*", name):
        return f"{name} is not a name: use lower-case letters, digits, and _ between words"
    crate = f"format_{name}"
    named = re.findall(r"^(\w+)", read(TOP / "crates.txt"), re.MULTILINE)
    if crate in named or (CRATES / crate).exists() or (TOP / "tests" / crate).exists():
        return f"the crate {crate} or its tests already exist"
    if name in FORMATS:
        return f"{name} is a format of scripts/vendor"
    return f"the kit has a library {crate}" if crate in taken_names() else ""


def renamed(text, crate):
    """Returns the model's text with the new names."""
    for old, new in RENAMED.items():
        text = text.replace(old, new.replace("FORMAT", crate))
    return text


def files(crate):
    """Returns the files of the crate and of its tests with their texts."""
    for old, new in COPIES.items():
        text = wrapped(renamed(read(MODEL / old), crate), new.endswith(".antt"))
        yield CRATES / crate / new, text
    of = {it.name: renamed(it.text, crate) for it in edits_of("examples")}
    edits = [Written(crate, f"parse_file_{it}", of[f"settings_file_{it}"]) for it in EDITS]
    yield FOLDER / f"{crate}.txt", text_of(edits)
    yield CRATES / crate / "src/lib.rt", ROOT
    yield CRATES / crate / "specs/Lib.antt", f"-- {HEAD}\npub mod Settings\npub mod SettingsRead\n"
    yield CRATES / crate / "README.md", PAGE.format(crate=crate, what=WHAT)
    doc, _, tests = renamed(read(TEST), crate).partition("\n")
    yield TOP / "tests" / crate / "lib.rs", f"{doc}\n#![tactic(auto)]\n\n{tests}"
    yield TOP / "changes" / f"{crate}.md", f"- `{crate}`: a parser of {WHAT}.\n"


def put(path, mark, lines):
    """Inserts lines into a file before a mark."""
    text = read(path)
    if text.count(mark) != 1:
        sys.exit(f"{path.relative_to(TOP)} does not have {mark!r} exactly once")
    path.write_text(text.replace(mark, lines + mark), encoding="utf-8")


def put_cost(crate):
    """Adds the cost of the crate's proof to the table of CONTRIBUTING.md."""
    text, cell = read(COSTS), f"| `{crate}` | {SECONDS} |"
    if half := HALF.search(text):
        text = text.replace(half[0], f"{half[1]}{cell[1:]}\n")
    else:
        end = FULL.search(text).end()
        text = f"{text[:end]}{cell} | |\n{text[end:]}"
    COSTS.write_text(text, encoding="utf-8")


def lay_reader(name):
    """Creates the crate, and returns the list of what to change."""
    if wrong := fault_of_name(name):
        sys.exit(wrong)
    crate = f"format_{name}"
    for path, text in files(crate):
        path.parent.mkdir(parents=True, exist_ok=True)
        path.write_text(text, encoding="utf-8")
    words = {"name": name, "crate": crate, "What": WHAT.capitalize()}
    for path, mark, lines in LINES:
        put(path, mark.format(), lines.format(**words))
    put_cost(crate)
    subprocess.run([sys.executable, TOP / "scripts/registries.py"], check=True, capture_output=True)
    subprocess.run(["rt", "fmt"], cwd=CRATES / crate, check=False, stdout=subprocess.DEVNULL)
    return NEXT.format(crate=crate, at=f"crates/{crate}")
