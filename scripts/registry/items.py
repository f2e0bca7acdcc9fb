"""The public items of Rust files, as a user sees them: kind, signature without clauses, the names
of the clauses, and the documentation."""
import functools
import re
from dataclasses import dataclass, field

from registry.common import CRATES, closing, read

# Comments, strings and characters.
QUIET = re.compile(
    r"//[^\n]*|b?\"(?:\\.|[^\"\\])*\""
    r"|b?'(?:\\(?:x[0-9a-fA-F]{2}|u\{[^}]*\}|.)|[^'\\\n])'",
    re.DOTALL,
)
KINDS = "fn|struct|enum|trait|const|type"
PUBLIC = re.compile(rf"(pub |final )?(?:const (?=fn))?({KINDS}) (\w+)")
CLAUSE = re.compile(r"[()\[\]{};]|\b(?:requires|ensures)\b")


@dataclass
class Item:
    """A public item: `whole` is its signature with its clauses, and `inside` are its methods,
    associated types, variants or public fields."""

    kind: str
    name: str
    crate: str
    path: object
    signature: str = ""
    whole: str = ""
    doc: list = field(default_factory=list)
    clauses: list = field(default_factory=list)
    derives: list = field(default_factory=list)
    inside: list = field(default_factory=list)
    owner: str = ""


@dataclass
class Block:
    """An `impl` block: the trait, if any, the type, and the members."""

    trait: str
    type: str
    crate: str
    head: str
    doc: list
    inside: list


def quiet(text):
    """A text with comments and strings replaced by spaces."""
    return QUIET.sub(lambda found: re.sub(r"[^\n]", " ", found[0]), text)


def closed(plain, at):
    """The position after the bracket that closes the one at `at`."""
    depth = 0
    for found in re.compile(r"[()\[\]{}]").finditer(plain, at):
        depth += 1 if found[0] in "([{" else -1
        if not depth:
            return found.end()
    raise SystemExit(f"{plain[at:at + 60]} is not closed")


def head_of(plain, at):
    """The clauses of the item at `at`, with their positions, and the end of its head."""
    clauses, depth, place = [], 0, at
    while found := CLAUSE.search(plain, place):
        sign, place = found[0], found.end()
        if sign in ("requires", "ensures") and not depth:
            opened = plain.index("{", place)
            name, stop = plain[place:opened].strip(), closed(plain, opened)
            clauses.append((found.start(), stop, sign, name))
            place = stop
        elif sign in "([":
            depth += 1
        elif sign in ")]":
            depth -= 1
        elif not depth and sign in "{;":
            return clauses, found.start()
    return clauses, len(plain)


def ends(plain, at, is_use):
    """Where an item ends whose head ends at `at`."""
    if is_use:
        while plain[at] != ";":
            at = closed(plain, at) if plain[at] in "([{" else at + 1
        return at + 1
    return closed(plain, at) if plain[at] == "{" else at + 1


def parts(text, plain, at, end):
    """The items between two places but hidden ones: comment, attributes, and where each begins."""
    doc, marks = [], []
    while at < end:
        line = text.find("\n", at) + 1 or end
        if text[at].isspace():
            at += 1
        elif text.startswith("///", at):
            doc.append(text[at + 3 : line].strip("\n").removeprefix(" "))
            at = line
        elif text.startswith("//", at):
            doc, at = [], line
        elif text.startswith("#", at):
            stop = closed(plain, text.index("[", at))
            marks.append(text[at:stop])
            at = stop
        elif text[at] in "},":
            at += 1
        else:
            if "#[doc(hidden)]" not in marks:
                yield doc, marks, at
            at = skipped(text, plain, at)
            doc, marks = [], []


def skipped(text, plain, at):
    """Where the item that begins at `at` ends."""
    is_use = re.match(r"(?:pub(?:\([^)]*\))? )?(?:ghost|use|const|type)\b(?! fn)", text[at:])
    clauses, head = head_of(plain, at)
    return ends(plain, head, bool(is_use))


def signature(text, at, clauses, head):
    """The head of an item without its clauses, moved to the left."""
    place, kept = at, ""
    for start, stop, *_ in clauses:
        kept, place = kept + text[place:start], stop
    kept += text[place:head]
    column = at - text.rfind("\n", 0, at) - 1
    lines = [it.rstrip() for it in kept.splitlines() if it.strip()]
    moved = [lines[0], *(it[min(column, len(it) - len(it.lstrip())) :] for it in lines[1:])]
    return "\n".join(moved).removeprefix("final ").rstrip()


def lines_of_body(text, plain, at):
    """The parts of the body of a struct or enum, a comma after each: comment and line."""
    inner, stop = at + 1, closed(plain, at) - 1
    place, depth, found = inner, 0, []
    for sign in re.compile(r"[()\[\]{},]").finditer(plain, inner, stop):
        depth += (sign[0] in "([{") - (sign[0] in ")]}")
        if sign[0] == "," and not depth:
            found.append(text[place : sign.start()])
            place = sign.end()
    for part in [*found, text[place:stop]]:
        lines = [it.strip() for it in part.splitlines() if it.strip()]
        doc = [it[3:].removeprefix(" ") for it in lines if it.startswith("///")]
        code = " ".join(it for it in lines if not it.startswith(("//", "#")))
        if code:
            yield doc, code


def body_of(item, text, plain, head):
    """Puts into a struct, an enum or a trait what it shows of its body."""
    if item.kind == "trait":
        item.inside = [*members(item, text, plain, head)]
    elif item.kind in ("struct", "enum") and plain[head] == "{":
        body = [it for it in lines_of_body(text, plain, head) if not it[1].startswith("ghost")]
        shown = [it for it in body if item.kind == "enum" or it[1].startswith("pub ")]
        inner = "".join(f"    {code},\n" for _, code in shown)
        inner += "    /* private fields */\n" * (len(shown) < len(body))
        item.signature += f" {{\n{inner}}}"
        for doc, code in shown:
            name = re.search(r"(?:pub )?(\w+)", code)[1]
            part = Item("part", name, item.crate, item.path, code, doc=doc, owner=item.name)
            item.inside.append(part)
    elif item.kind == "struct":
        item.signature = re.sub(r"\((?!pub).*\)", "(/* private fields */)", item.signature)


def members(item, text, plain, head):
    """The functions and associated types of a trait, or of a block."""
    for doc, _, at in parts(text, plain, head + 1, closed(plain, head) - 1):
        found = re.match(rf"(pub |final )?({KINDS}) (\w+)", text[at:])
        if found:
            clauses, stop = head_of(plain, at)
            kind = "method" if found[2] == "fn" else found[2]
            made = Item(kind, found[3], item.crate, item.path, doc=doc, owner=item.name)
            made.signature = signature(text, at, clauses, stop)
            made.whole = signature(text, at, [], stop)
            made.clauses = [it[2:] for it in clauses]
            if item.kind == "trait" or found[1] == "pub ":
                yield made


@functools.cache
def module(crate, path):
    """The public items of a file by name, its blocks, and its `pub use`."""
    text = read(path)
    plain = quiet(text)
    items, blocks, uses = {}, [], {}
    for doc, marks, at in parts(text, plain, 0, len(text)):
        clauses, head = head_of(plain, at)
        found = re.match(rf"pub (?:const (?=fn))?({KINDS}) (\w+)", text[at:])
        if found:
            item = Item(found[1], found[2], crate, path, doc=doc)
            stop = skipped(text, plain, at) - 1 if found[1] in ("const", "type") else head
            item.signature = signature(text, at, clauses, stop)
            item.whole = signature(text, at, [], stop)
            item.clauses = [it[2:] for it in clauses]
            derived = re.findall(r"derive\((.*?)\)", " ".join(marks))
            item.derives = re.findall(r"\w+", " ".join(derived))
            body_of(item, text, plain, head)
            items[item.name] = item
        elif made := re.match(r"macro_rules! (\w+)", text[at:]):
            items[made[1]] = Item("macro", made[1], crate, path, f"{made[1]}!", doc=doc)
        elif re.match(r"impl\b", text[at:]):
            blocks.append(block(crate, path, text, plain, at, head, doc))
        elif re.match(r"pub use ", text[at:]):
            line = " ".join(text[at : skipped(text, plain, at)].split())
            for one in re.finditer(r"pub use ([\w:]+)::(?:(\w+)|\{([^}]*)\});", line):
                for name in [one[2]] if one[2] else re.findall(r"\w+", one[3]):
                    uses[name] = one[1]
    return items, blocks, uses


def block(crate, path, text, plain, at, head, doc):
    """The `impl` block at `at`."""
    whole = " ".join(text[at:head].split())
    start = closing(whole, 4) if whole[4] == "<" else 4
    rest = whole[start:].strip().partition(" where ")[0]
    cut = re.search(r" for (?!<)", rest)
    trait, of = (rest[: cut.start()], rest[cut.end() :]) if cut else ("", rest)
    name = re.match(r"[\w:]+", of)
    made = Block(trait, of, crate, whole, doc, [])
    owner = Item("impl", name[0] if name else of, crate, path)
    made.inside = [*members(owner, text, plain, head)] if not trait else []
    return made


def sources(crate):
    return sorted((CRATES / crate / "src").rglob("*.rt"))


def file_of(crate, modules):
    """The file of a module of a crate."""
    src = CRATES / crate / "src"
    return src / ("/".join(modules) + ".rt") if modules else src / "lib.rt"


def find(crate, modules, name):
    """The item that a path leads to."""
    path = file_of(crate, modules)
    if not path.is_file():
        return None
    items, _, uses = module(crate, path)
    if name in items:
        return items[name]
    if name in uses:
        first, *others = uses[name].split("::")
        return find(crate if first == "crate" else first, others, name)
    # A macro is at the root of its crate, wherever it is written.
    macros = [module(crate, it)[0].get(name) for it in sources(crate)]
    return next((it for it in macros if it and it.kind == "macro"), None)
