"""The index of all public items, `docs/generated/API.md`, and the API reference, `docs/api/`, which is
not in git: a page per module, and an index. On the pages each item has its signature, its
documentation and the names of its clauses."""
import re
import textwrap

from registry.common import CRATES, HEAD, TOP, below_winnow, in_order, write
from registry.facade import FACADE
from registry.items import find, module, sources
from registry.parsers import header, sentence

INDEX, FOLDER = TOP / "docs/generated/API.md", TOP / "docs/api"
WIDTH = 100
# The modules of the crate `winnow` that are modules of another crate.
MODULES = {"token": ("winnow_token", ["token"]), "binary::bits": ("winnow_bits", ["bits"])}
# The target of a link, as given below a comment.
LED = re.compile(r"^\[`([^`]*)`\]: ([\w:]+)$")
LINK = re.compile(r"\[`([^`]*)`\](?:\(([\w:]+)\))?(?!\()")


def facade():
    """The items of each module of the crate `winnow`, from the crates that define them."""
    found = {}
    for path in sorted((FACADE / "src").rglob("*.rt")):
        if path.stem in ("parsers", "macros"):
            # The structs of `impls` under other names; a macro, which is no item.
            continue
        name = "::".join(path.relative_to(FACADE / "src").with_suffix("").parts)
        uses = module("winnow", path)[2]
        places = [(uses[it], it) for it in sorted(uses, key=in_order)]
        items = [find(of.partition("::")[0], of.split("::")[1:], it) for of, it in places]
        # Names that are not items are modules, which come later.
        found["" if name == "lib" else name] = [it for it in items if it]
    for name, (crate, modules) in MODULES.items():
        for inner, more in (("", []), ("::impls", ["impls"])):
            path = CRATES / crate / "src" / ("/".join([*modules, *more]) + ".rt")
            items, _, uses = module(crate, path)
            names = sorted({*items, *uses}, key=in_order)
            found[name + inner] = [find(crate, [*modules, *more], it) for it in names]
    return found


def rank(module_name):
    """A sort key of modules: those of structs come after the others, and the prelude last."""
    return module_name == "prelude", "impls" in module_name, module_name


class Reference:
    """The page, the modules and the anchor of each item."""

    def __init__(self):
        self.modules, self.pages, self.place, self.said = facade(), {}, {}, []
        self.blocks = [it for crate in [*below_winnow(), "winnow"] for path in sources(crate)
                       for it in module(crate, path)[1]]
        self.submodules = {(it, path.stem) for it in below_winnow() for path in sources(it)}
        self.all = {}
        for name, items in self.modules.items():
            for item in items:
                self.all.setdefault(id(item), (item, []))[1].append(name)
        self.names = {it.name for it, _ in self.all.values()}
        for item, _ in self.all.values():
            if item.kind in ("struct", "enum") and all(it.kind == "part" for it in item.inside):
                item.inside = item.inside + self.methods(item)
        self.anchor = {}
        for name in sorted(self.modules, key=rank):
            self.add(name)

    def add(self, name):
        """Adds the page of a module, with the items that no earlier page has."""
        items = [it for it in self.modules[name] if id(it) not in self.place]
        if not items:
            return
        stem = name.replace("::", "_") or "winnow"
        self.pages[stem], known = (name, items), {}
        for item in [it for whole in items for it in [whole, *self.below(whole)]]:
            self.place[id(item)] = stem
            anchor = re.sub(r"[^\w]", "", self.title(item).lower())
            again = known.get(anchor, 0)
            self.anchor[id(item)] = anchor + f"-{again}" * bool(again)
            known[anchor] = again + 1

    def below(self, item):
        """The members of an item with their own headings."""
        return [it for it in item.inside if it.kind != "part"]

    def methods(self, item):
        """The members in the inherent `impl` blocks of a type."""
        own = [it for it in self.blocks if not it.trait and it.crate == item.crate]
        own = [it for it in own if re.match(r"\w+", it.type)[0] == item.name]
        return [method for it in own for method in it.inside]

    def title(self, item):
        return f"{item.owner}::{item.name}" if item.owner else item.name

    def link(self, item, label, near=""):
        """A link to an item from a page, or from the index of the pages."""
        anchor = self.anchor.get(id(item), item.owner.lower())
        stem = self.place[id(item)]
        return f"[{label}]({'' if stem == near else f'{stem}.md'}#{anchor})"

    def of_parser(self, crate, name, dot=""):
        """A parser's name, linked from `docs/` to its file; that of a method begins with a dot."""
        whole = [it for it, _ in self.all.values() if it.crate == crate]
        for item in [*whole, *(inner for it in whole for inner in it.inside)]:
            if item.name == name and item.kind in ("fn", "method"):
                return file_link(item, f"`{dot}{name}`")
        return f"`{dot}{name}`"

    def meant(self, item, target):
        """The target of a link in the documentation of an item."""
        *before, name = target.split("::")
        whole = [it for it, _ in self.all.values()]
        every = [*whole, *(inner for it in whole for inner in it.inside)]
        found = [it for it in every if it.name == name and id(it) in self.place]
        owner = before[-1] if before and before[-1][0].isupper() else ""
        crate = before[0] if before and before[0] in below_winnow() else item.crate
        if before:
            found = [it for it in found if it.owner == owner]
        # Of equally near ones, the last.
        near = [(it.crate == crate, it.path == item.path, not it.owner) for it in found]
        return found[max(range(len(found)), key=lambda at: (near[at], at))] if found else None

    def linked(self, item, text, stem):
        """A line of documentation, with links to the items' anchors."""

        told = dict(it.groups() for it in map(LED.match, item.doc) if it)

        def led(found):
            target = self.meant(item, found[2] or told.get(found[1], found[1]))
            if target is None and (item.crate, found[1]) not in self.submodules:
                self.said.append(f"{item.path.relative_to(TOP)}: {found[0]} leads to no item")
            if target is None:
                return f"`{found[1]}`"
            return self.link(target, f"`{found[1]}`", stem)

        return LINK.sub(led, text)

    def prose(self, item, stem):
        """The documentation of an item, with examples marked as code."""
        inside, lines = False, []
        text = "\n".join(it for it in item.doc if not LED.match(it))
        for part in re.split(r"(^```[^\n]*$)", text, flags=re.MULTILINE):
            if part.startswith("```"):
                inside = not inside
                lines.append("```rust" if inside and part == "```" else part)
            else:
                lines.append(part if inside else self.linked(item, part, stem))
        return "".join(lines).strip() + "\n"

    def example(self, item, stem):
        """The example of the struct that a call returns, if the call has no example."""
        made = re.search(r"\) -> (\w+)", item.signature)
        is_own = made and made[1] == item.owner
        if item.kind != "method" or not made or is_own or "```" in item.doc:
            return ""
        for struct in [it for it, _ in self.all.values() if it.kind == "struct"]:
            if (struct.name, struct.crate) == (made[1], item.crate) and "```" in struct.doc:
                whole = "\n".join(struct.doc)
                code = re.search(r"^```\n.*?^```$", whole, re.MULTILINE | re.DOTALL)[0]
                link = self.link(struct, f"`{struct.name}`", stem)
                return f"The example of {link}:\n\n```rust{code[3:]}\n\n"
        return ""

    def contract(self, item):
        """The names of the clauses, and the file."""
        words = []
        for kind in ("requires", "ensures"):
            names = [name for of, name in item.clauses if of == kind]
            told = ", ".join(f"`{it}`" if it else "one clause" for it in names)
            words += [f"{kind} {told}"] if names else []
        file = f"[{item.path.name}](../../{item.path.relative_to(TOP)})"
        said = f"Contract: {'; '.join(words)}. " if words and not self.is_law(item) else ""
        return wrapped(f"{said}In {file}.")

    def is_law(self, item):
        """Whether an item is a law; its contract is its statement."""
        return "laws" in self.all.get(id(item), (None, []))[1]

    def is_shown(self, type_):
        """Whether users name a type that implements a trait."""
        name = re.match(r"\w+", type_)
        return not name or not re.match(r"[A-Z]\w\w", name[0]) or name[0] in self.names

    def implementors(self, item):
        """The types that implement a trait, with the comments of the blocks."""
        own = [it for it in self.blocks if self.is_shown(it.type)]
        own = [it for it in own if it.trait.partition("<")[0].split("::")[-1] == item.name]
        plain = sorted((self.shown(it) for it in own if not it.doc), key=in_order)
        plain = ", ".join(f"`{it}`" for it in dict.fromkeys(plain))
        text = wrapped(f"Implemented for {plain}.") if plain else ""
        told = "".join(f"- `{it.type}`: {sentence_of(it.doc)}\n" for it in own if it.doc)
        if told:
            text += f"{chr(10)}Also implemented for:\n\n" if text else "Implemented for:\n\n"
        return text + told

    def shown(self, block):
        """A type that implements a trait; for a parameter, with its bounds."""
        text = " ".join(block.type.split()).replace("< ", "<").replace(", >", ">")
        if re.fullmatch(r"[A-Z]\d?", text) and text not in self.names:
            return " ".join(block.head.split()).replace("< ", "<").replace(", >", ">")
        name = text.partition("<")[0]
        return name if name in self.names else text

    def traits(self, item):
        """The traits that a type implements."""
        same = sum(it.name == item.name for it, _ in self.all.values()) == 1
        own = [it for it in self.blocks if it.trait and re.match(r"&?\w*", it.type)[0] == item.name]
        own = [it.trait for it in own if it.crate == item.crate or same]
        names = [*item.derives, *(re.match(r"[\w:]+", it)[0].split("::")[-1] for it in own)]
        told = ", ".join(f"`{it}`" for it in sorted({*names}))
        return wrapped(f"Implements {told}.") if names else ""

    def section(self, item, stem, level):
        """The section of an item on a page."""
        text = f"{'#' * level} {self.title(item)}\n\n"
        where = self.all.get(id(item), (None, []))[1]
        if [it for it in where if it != self.pages[stem][0]]:
            told = ", ".join(f"`winnow{'::' * bool(it)}{it}`" for it in where)
            text += f"In {told}.\n\n"
        head = item.whole if self.is_law(item) else item.signature
        text += f"```rust\n{head}\n```\n\n{self.prose(item, stem)}\n"
        for part in [it for it in item.inside if it.kind == "part" and it.doc]:
            about = " ".join(self.linked(item, line, stem) for line in part.doc)
            text += f"- `{part.signature.removeprefix('pub ')}`: {about}\n"
        text += "\n" if text.endswith(".\n") and not text.endswith("\n\n") else ""
        extra = self.implementors(item) if item.kind == "trait" else ""
        extra = self.traits(item) if item.kind in ("struct", "enum") else extra
        text += self.example(item, stem) + (extra + "\n" if extra else "")
        return text + self.contract(item) + "\n"

    def page(self, stem):
        """The page of a module."""
        name, items = self.pages[stem]
        text = f"# winnow{'::' * bool(name)}{name}\n\n[All items](README.md).\n\n"
        for item in items:
            text += self.section(item, stem, 2)
            text += "".join(self.section(it, stem, 3) for it in self.below(item))
        return text.rstrip() + "\n"

    def rows(self, item, link):
        """The lines of an item in the index, and of its members."""
        inner = [it for it in item.inside if it.kind not in ("part", "type")]
        for it in [item, *inner]:
            about = re.split(r"[:;] ", sentence_of(it.doc))[0].removesuffix(".")
            yield f"- {link(it, f'`{self.title(it)}`')}{': ' * bool(about)}{about}\n"

    def index(self, head, link):
        """A line for each item, by the modules of `winnow`; structs of parsers without methods share
        one."""
        text, done = head, set()
        for name in sorted(self.modules, key=rank):
            items = [it for it in self.modules[name] if id(it) not in done]
            done.update(id(it) for it in items)
            text += f"\n## winnow{'::' * bool(name)}{name}\n\n{about_of(name)}\n\n"
            again = [it for it in self.modules[name] if it not in items]
            structs = [it for it in items if name.endswith("impls") and it.kind == "struct"]
            structs = [it for it in structs if all(of.kind != "method" for of in it.inside)]
            for before, several in (("Also", again), ("Structs:", structs)):
                links = ", ".join(link(it, f"`{it.name}`") for it in several)
                text += f"{before} {links}.\n\n" if several else ""
            others = [it for it in items if it not in structs]
            text += "".join(line for it in others for line in self.rows(it, link))
        return re.sub(r"\n\n\n+", "\n\n", text).rstrip() + "\n"


ABOUT_INDEX = f"""<!-- {HEAD} -->

# Index

The public items of the crate `winnow`, by module. Each is linked to its file, which has its
signature, documentation and contract. [PARSERS.md](../PARSERS.md) lists parsers by purpose. The
modules `impls`, at the end, have the structs of the parsers: pass the struct `Alpha1` where a parser
is expected. `winnow::parsers` has those without arguments under winnow's names, as `alpha1`, but
for `u8`, `i8` and `bool`, which are types.

`python3 scripts/api.py` generates reference pages with signatures, documentation and clauses in
`docs/api/`.
"""
ABOUT_PAGES = """# API reference

The public items of the crate `winnow`, by module, with signatures, documentation, examples and the
names of their clauses. The linked file has the contract; a law is shown with it. Clauses use
definitions in `specs/` of the same crate. [PARSERS.md](../PARSERS.md) lists parsers by purpose.
"""


def file_link(item, label):
    """A link to the file of an item from `docs/`."""
    return f"[{label}](../{item.path.relative_to(TOP)})"


def index_link(item, label):
    """A link to the file of an item from the folder of the index."""
    return f"[{label}](../../{item.path.relative_to(TOP)})"


def sentence_of(doc):
    return sentence("".join(f"/// {it}\n" for it in doc)) if doc else ""


def wrapped(text):
    """A paragraph in lines, none of which ends within code."""
    text = re.sub(r"`[^`]*`", lambda found: found[0].replace(" ", "\0"), text)
    lines = textwrap.fill(text, WIDTH, break_long_words=False, break_on_hyphens=False)
    return lines.replace("\0", " ") + "\n"


def about_of(name):
    """The text at the head of a module."""
    of, inner = name.removesuffix("::impls"), name.endswith("::impls")
    if of in MODULES:
        crate, modules = MODULES[of]
        return header(CRATES / crate / "src" / ("/".join(modules + ["impls"] * inner) + ".rt"))
    path = FACADE / "src" / (name.replace("::", "/") + ".rt" if name else "lib.rt")
    return header(path)


def write_index(reference):
    write(INDEX, reference.index(ABOUT_INDEX, index_link))


def write_api(reference):
    """Writes the pages, and takes away those that are none any more."""
    FOLDER.mkdir(exist_ok=True)
    for stem in reference.pages:
        write(FOLDER / f"{stem}.md", reference.page(stem))
    write(FOLDER / "README.md", reference.index(ABOUT_PAGES, reference.link))
    for path in FOLDER.glob("*.md"):
        if path.stem not in [*reference.pages, "README"]:
            path.unlink()
            print(path.relative_to(TOP))
    for line in dict.fromkeys(reference.said):
        print(line)
