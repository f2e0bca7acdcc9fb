"""The checks of a new parser's name, which `scripts/new.py` runs before it writes anything."""
import re

from new_beside import TESTS
from registry.common import CRATES, TOP, below_winnow, camel, read
from toolchain import toolchain

# Ghost terms, whose names are separate from those of the code.
GHOST = re.compile(
    r"ghost \w+ = \{.*?\};\n|ghost use .*?;\n|(?:ensures|requires)\b.*?\}\n", re.DOTALL
)
COMMENT = re.compile(r"//.*")


def code(text):
    """Returns a source file without comments and ghost terms."""
    return GHOST.sub("", COMMENT.sub("", text))


def taken(of, to, body):
    """Returns the names that the new parser's code uses for other things: the types of the model,
    and the items and imports of the file."""
    model = {*re.findall(r"\b[A-Z]\w*", code(read(of.impls)) + code(body))} - {camel(of.name)}
    file = code(read(to.file))
    items = re.findall(r"\b(?:fn|struct|enum|trait|type|const|static|mod) (\w+)", file)
    for line in re.findall(r"^(?:pub )?use ([^;]*);", file, re.MULTILINE):
        items += re.findall(r"(\w+)(?=\s*[,}]|\s*$)", line)
    return model | {*items}


def fault_of_place(file):
    """Returns why no parser can be created in a file, or an empty text."""
    parts = file.relative_to(CRATES).parts if CRATES in file.parents else ("",)
    if parts[0] not in TESTS or parts[1] != "src" or not file.is_file():
        return f"{file} is not a file in src/ of one of {', '.join(TESTS)}"
    return ""


def fault_of_name(of, to, body):
    """Returns why the new parser cannot have its name, or an empty text."""
    name = to.name
    if not re.fullmatch(r"[a-z][a-z0-9]*(?:_[a-z0-9]+)*", name):
        return f"{name} is not a function name: use lower-case letters, digits, and _ between words"
    if name in toolchain().rtlib.KEYWORDS:
        return f"{name} is a keyword"
    specs = [CRATES / it / "specs" / f"{camel(name)}.antt" for it in below_winnow()]
    for there in (*CRATES.glob(f"*/src/*/impls/{name}.rt"), *specs):
        if there.is_file():
            return f"{there.relative_to(TOP)} already exists"
    for other in {name, camel(name)} & taken(of, to, body):
        return f"{other} already names something else in {to.file.relative_to(TOP)} or its struct's file"
    return ""
