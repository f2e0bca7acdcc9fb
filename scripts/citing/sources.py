"""The files of code: the names in their clauses, and the laws that they declare or call."""
import re

from citing.logic import Item, imports, names_in, resolve
from registry.common import CRATES, TOP, read

GHOST = re.compile(r"^\s*(?:pub )?ghost use ([^;]*);", re.MULTILINE)
IMPORT = re.compile(r"^\s*(?:pub(?:\([^)]*\))? )?use [^;]*;", re.MULTILINE)
LAW = re.compile(r"^pub fn (\w+)", re.MULTILINE)
NAMED = re.compile(r"(?:using|unfolding)\(([^)]*)\)")


class Source:
    """A file of code as one item; in a file of laws, each law is an item."""

    def __init__(self, path):
        text = re.sub(r"(?m)//.*$", "", read(path))
        is_ours = CRATES in path.parents
        parts = path.relative_to(CRATES if is_ours else TOP).with_suffix("").parts
        self.crate, self.scope, self.items = parts[0], {}, []
        for several in GHOST.findall(text):
            for name, base, leaf in imports(several):
                self.scope[name] = (base.removeprefix("Rattle."), leaf)
        text = IMPORT.sub("", GHOST.sub("", text))
        is_laws = is_ours and "laws" in parts
        begins = [found.start() for found in LAW.finditer(text)] if is_laws else []
        for start, end in zip([0, *begins], [*begins, len(text)]):
            name = LAW.match(text[start:end])
            line = read(path)[: read(path).find(f"pub fn {name[1]}")].count("\n") + 1 if name else 1
            module = "::".join([self.crate, *parts[2:]])
            item = Item(path, line, name[1] if name else parts[-1], "law", module)
            item.path = f"{module}::{item.name}" if name else ""
            item.is_law, item.is_declared = bool(name), bool(name)
            item.texts = [text[start:end]]
            self.items.append(item)

    @property
    def laws(self):
        """Returns the laws, by the paths under which their goals are found."""
        return {item.path: item for item in self.items if item.is_law}

    def cited(self, item, scope, known, laws):
        """Returns the declarations named in its clauses and attributes, and the laws it calls."""
        text = " ".join(item.texts)
        found = names_in(text, scope, known)
        for several in NAMED.findall(text):
            for path in several.split(","):
                place = path.strip().replace("::", ".").replace("crate.", f"{self.crate}.", 1)
                found.add(resolve(known, *place.rpartition(".")[::2]))
        words = set(re.findall(r"\w+", text))
        found |= {law for law in laws.values() if law.name in words and law is not item}
        return {it for it in found if isinstance(it, Item)}
