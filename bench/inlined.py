"""Finds the functions with `#[inline(always)]` or `#[inline(never)]` in Rattle sources, by their names
in LLVM. `unproved.py` needs them, since the modules of `rt try` have no such attributes."""
import collections
import re

FUNCTION = re.compile(
    r'\s*(?:pub(?:\([^)]*\))? )?(?:final )?(?:const )?(?:unsafe )?(?:extern "C" )?fn (\w+)'
)
TRAIT = re.compile(r"(?:pub(?:\([^)]*\))? )?(?:unsafe )?trait (\w+)")
INLINE = re.compile(r"\s*#\[inline\((always|never)\)\]")
WORD = re.compile(r"\s*(?:\w+::)*(\w+)")


def behind_generics(text):
    """Returns the rest of a text after the generics at its start, if there are any."""
    depth = 0
    for at, character in enumerate(text):
        depth += character == "<"
        depth -= character == ">" and text[at - 1] not in "-="
        if depth == 0:
            return text[at + 1 :] if character == ">" else text
    return text


def named(type_text):
    """Returns a prefix of the name of an impl's type in LLVM."""
    text, before = re.sub(r"'\w+ ?", "", type_text).strip(), ""
    for mark, word in (("&mut ", "MutRef"), ("&", "Ref"), ("[", "Slice")):
        if text.startswith(mark):
            text, before = text[len(mark) :].strip(), before + word
    word = (WORD.match(text) or ["", "Tuple"])[1]
    return before + word[0].upper() + word[1:]


def owner(header):
    """Returns prefixes of the LLVM names of an impl's type and trait, which is empty without a trait."""
    text = behind_generics(re.sub(r"^(?:unsafe )?impl", "", header).strip())
    depth = 0
    for at, character in enumerate(text):
        depth += character in "<(["
        depth -= character in ">)]" and text[at - 1] not in "-="
        if depth == 0 and text.startswith(" for ", at):
            return named(text[at + 5 :]), WORD.match(text)[1]
    return named(text), ""


def functions(lines):
    """Yields the functions of a file: the owner, the name, and the argument of `inline`."""
    whose, said, header = ("", ""), "", None
    for line in lines:
        if header is not None:
            header += f" {line.strip()}"
        elif re.match(r"(?:unsafe )?impl\b", line):
            header = line
        if header is not None:
            if "{" in header:
                whose, header = owner(re.split(r" where |\{", header)[0]), None
        elif line.startswith("}"):
            whose = ("", "")
        elif trait := TRAIT.match(line):
            whose = (trait[1], "")
        elif inline := INLINE.match(line):
            said = inline[1]
        elif function := FUNCTION.match(line):
            yield whose, function[1], said
            said = ""


class Inlined:
    """The `inline` attributes of the functions of some crates."""

    def __init__(self, crates):
        self.in_module = collections.defaultdict(list)
        self.of_type = {}
        for name, source in crates:
            for file in sorted(source.rglob("*.rt")):
                inside = file.relative_to(source).with_suffix("").parts
                module = "::".join([name, *inside]) if inside != ("lib",) else name
                lines = file.read_text(encoding="utf-8").splitlines()
                for whose, function, said in functions(lines):
                    self.in_module[module, function].append((whose, said))
                    if whose[0] and not whose[1]:
                        self.of_type[name, whose[0], function] = said

    def of(self, name):
        """Returns `always`, `never` or "" for a function, by its name in an LLVM module."""
        parts = re.sub(r"::<.*", "", name).split("::")
        if len(parts) < 3:
            return ""
        found = self.in_module.get(("::".join(parts[:-1]), parts[-1]), [])
        free = [said for (type_name, _), said in found if not type_name]
        if free:
            return free[0]
        found = self.in_module.get(("::".join(parts[:-2]), parts[-1]), [])
        if found and len({said for _, said in found}) == 1:
            return found[0][1]
        fits = [
            (len(type_name + trait), said)
            for (type_name, trait), said in found
            if parts[-2] == type_name or (trait and parts[-2].startswith(type_name + trait))
        ]
        return max(fits)[1] if fits else self.of_type.get((parts[0], parts[-2], parts[-1]), "")
