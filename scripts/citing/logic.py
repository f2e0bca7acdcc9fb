"""The files of definitions and lemmas: their declarations, and the names in each declaration."""
import re

from registry.common import CRATES, read

MODIFIERS = r"(?:(?:abbrev|opaque|unfoldable|pub)\s+)*"
HEADER = re.compile(r"(?:unfoldable\s+)?(?:pub\s+)?(use|mod)\s+(.*)", re.DOTALL)
NAMED = re.compile(MODIFIERS + r"(record|data|ruleset)\s+([^\s(){}=]+)")
SIGNED = re.compile(MODIFIERS + r"([^\s(){}:=|]+)(?:\s+\{[^}:]*\})*\s+:\s")
BLOCK = re.compile(r"(module\s|mutual$)")
CHAIN = re.compile(r"[^\s(){}\[\],;.|\"⟦⟧«»]+(?:\.[^\s(){}\[\],;.|\"⟦⟧«»]+)*")
CONSTRUCTORS = re.compile(r"^\s+((?:[^\s(){}:=]+\s+)+):\s", re.MULTILINE)
# Files whose names are those of a function's goals.
GOALS = {"Answers", "Invariants", "Proof"}


class Item:
    """A declaration: its position and its text."""

    def __init__(self, file, line, name, kind="", module=""):
        self.file, self.line, self.name, self.kind = file, line, name, kind
        self.path = f"{module}.{name}"
        self.texts, self.around = [], ""
        self.is_goal = self.is_law = False
        self.is_declared = True


def without_comments(text):
    return re.sub(r"(?:(?<=\s)|^)--(?=\s|$).*", "", text, flags=re.MULTILINE)


def statements(text):
    """Returns the statements at the margin of a file or of a block: the line, the text, and the
    heads of the enclosing blocks."""
    parts, begun, lines, around = [(0, "")], 0, [], ""
    head, is_head, is_new = "", False, False
    for number, line in enumerate(without_comments(text).splitlines(), 1):
        inner = line.strip()
        if not inner:
            continue
        indent = len(line) - len(line.lstrip())
        if is_head:
            head += f" {inner}"
            is_head, is_new = not inner.endswith("where"), inner.endswith("where")
            continue
        if is_new:
            parts.append((indent, head))
            is_new = False
        while indent < parts[-1][0] and inner[0] not in ")]}":
            parts.pop()
        if indent != parts[-1][0] or inner[0] in ")]}":
            lines.append(line)
            continue
        if lines:
            yield begun, "\n".join(lines), around
        begun, lines = number, []
        if BLOCK.match(inner):
            head, is_new = inner, inner.endswith(("where", "mutual"))
            is_head = not is_new
            continue
        around = " ".join(head for _, head in parts)
        lines.append(inner)
    if lines:
        yield begun, "\n".join(lines), around


def imports(path):
    """Returns the names that an import brings into scope, each with the path that it denotes."""
    path = " ".join(path.split())
    inner = re.match(r"(.*?)\.?\{(.*)\}", path)
    if not inner:
        whole, _, other = path.partition(" as ")
        yield (other or whole.rpartition(".")[2]).strip(), whole.strip(), None
        return
    for leaf in filter(None, (it.strip() for it in inner[2].split(","))):
        whole, _, other = leaf.partition(" as ")
        folder, _, name = whole.strip().rpartition(".")
        base = ".".join(filter(None, (inner[1].strip(), folder)))
        yield (other or name).strip(), base, name


class Module:
    """A file. Its scope maps a name to a module, or to a module and a name in it."""

    def __init__(self, path):
        self.file = path
        parts = path.relative_to(CRATES).with_suffix("").parts
        self.name = ".".join(parts[:-1] if parts[-1] == "Lib" else parts)
        is_goals = parts[1] == "proofs" and parts[-1] in GOALS
        self.function = "::".join([parts[0], *parts[2:-1]]) if is_goals else ""
        self.scope, self.passed_on, self.own, self.items = {}, {}, {}, []
        for line, text, around in statements(read(path)):
            header = HEADER.match(text)
            if header and not SIGNED.match(text):
                self.bring(text, *header.groups())
            else:
                self.declare(line, text, around)
        for name, item in self.own.items():
            self.scope[name] = (self.name, name)

    def bring(self, text, word, path):
        if word == "mod":
            self.scope[path.strip()] = (f"{self.name}.{path.strip()}", None)
            return
        for name, base, leaf in imports(path):
            head, _, rest = base.partition(".")
            if head == "Rattle":
                at = (rest, leaf)
            elif head in self.scope and self.scope[head][1] is None:
                at = (".".join(filter(None, (self.scope[head][0], rest))), leaf)
            else:
                continue
            self.scope[name] = at
            if re.match(r"(unfoldable\s+)?pub\s", text):
                self.passed_on[name] = at

    def declare(self, line, text, around):
        named, signed = NAMED.match(text), SIGNED.match(text)
        if named or signed:
            kind, name = named.groups() if named else ("", signed[1])
            item = Item(self.file, line, name, kind, self.name)
            item.is_goal = bool(self.function) and self.is_answer(name, text)
            item.is_declared = not item.is_goal
            self.items.append(item)
            self.own[name] = item
            if kind == "data":
                for several in CONSTRUCTORS.findall(text):
                    self.own.update({it: item for it in several.split()})
        elif not self.items or self.clause_of(text) is None:
            self.items.append(Item(self.file, line, text.split()[0], "", self.name))
            self.items[-1].is_goal, self.items[-1].is_declared = True, False
        item = self.items[-1] if named or signed else self.clause_of(text) or self.items[-1]
        item.texts.append(text)
        item.around = around

    def is_answer(self, name, text):
        """Returns whether this proves a goal: it names the goal, or is an invariant."""
        return self.file.stem != "Answers" or " goal" in text or name.startswith("invariant")

    def clause_of(self, text):
        """Returns the declaration of a clause: the one named by its first word, otherwise the one
        before."""
        if "ruleset" in text.split("=")[0] or re.match(r"infix|syntax|open ", text):
            return None
        return self.own.get(text.split()[0]) or (self.items[-1] if self.items else None)

    def cited(self, item, scope, known):
        """Returns the declarations that a declaration names, except itself."""
        found = names_in(" ".join([*item.texts, item.around]), scope, known)
        return found - {item}


def names_in(text, scope, known):
    """Returns the declarations that a text names."""
    found = set()
    operators = {part: it for name, it in scope.items() if "◌" in name for part in name.split("◌")}
    for chain in set(CHAIN.findall(text)):
        head, _, rest = chain.partition(".")
        at = scope.get(head) or operators.get(head)
        if chain.startswith("Rattle."):
            at, rest = resolve(known, *rest.rpartition(".")[::2]), ""
        while isinstance(at, str) and rest:
            head, _, rest = rest.partition(".")
            at = resolve(known, at, head) or resolve(known, f"{at}.{head}", None)
        if isinstance(at, Item):
            found.add(at)
    return found


def resolve(known, path, name):
    """Resolves a path through re-exports: to a declaration, or to a module's own path."""
    place = home(known, path)
    if name is None or place is None:
        return place
    module = known[place]
    if name in module.own:
        return module.own[name]
    if name in module.passed_on:
        return resolve(known, *module.passed_on[name])
    return None


def home(known, path):
    """Returns the path of the file of a module."""
    if path in known:
        return path
    folder, _, last = path.rpartition(".")
    place = home(known, folder) if folder else None
    if place is None:
        return None
    if f"{place}.{last}" in known:
        return f"{place}.{last}"
    base, leaf = known[place].passed_on.get(last, (None, "not"))
    return home(known, base) if leaf is None else None
