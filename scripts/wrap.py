"""Breaks the long lines of specs, proofs and clauses, which `rt fmt` does not break.

python3 scripts/wrap.py            lists the lines longer than 100 columns or 130 bytes
python3 scripts/wrap.py FILE ..    breaks the long lines of these files

A line is broken where it is nested least, before an operator if possible.
"""
import os
import re
import sys

from registry.common import split

WIDTH = 100
# A line of symbols has two or three times as many bytes.
BYTES = 130
# The width for broken lines, since `rt fmt` indents some parts further.
FIT = 96
OPEN, CLOSE = "([{⟨", ")]}⟩"
# The prefixes of Rust lines that are broken here.
GHOST = ("ghost ", "ensures ", "requires ", "pub ghost ", "invariant ")
# The words before which a line is broken, the loosest first.
ARGUMENT = 14
OPERATORS = ["→", "↔", "⊎", "×", "≡", "∙", "$", "↦", "in", "++"]


def is_long(line):
    return len(line) > WIDTH or len(line.encode()) > BYTES


def breaks_of(text):
    """Returns the possible breaks of a line: offset, depth and looseness."""
    places, depth, at = [], 0, 0
    while at < len(text):
        char = text[at]
        if char in OPEN:
            depth += 1
        elif char in CLOSE:
            depth -= 1
        elif char == " " and at + 1 < len(text):
            word = re.match(r"\S+", text[at + 1 :])
            word = word[0] if word else ""
            before = text[:at].rsplit(" ", 1)[-1]
            if word in ("=", ":", ":=") or word[:1] in CLOSE or before in (*OPERATORS, "|", "λ", "{"):
                pass
            elif word in OPERATORS:
                places.append((at, depth, OPERATORS.index(word)))
            elif before == "record" and word.startswith("{"):
                pass
            elif before == "=" and depth == 0 and " = " not in text[: at - 2]:
                places.append((at, depth, -1))
            elif before.endswith((",", ";")) or word.startswith("|"):
                places.append((at, depth, 1))
            elif re.search(r"λ [^.λ]*\.$", text[:at]):
                places.append((at, depth, 16))
            elif in_binder(text, at):
                places.append((at, depth + 3, 20))
            elif re.match(r"[({][^(){}:]* :", text[at + 1 :]):
                places.append((at, depth, 3))
            else:
                places.append((at, depth, ARGUMENT))
        at += 1
    return places


def in_binder(text, at):
    """Returns whether an offset is between the names that a λ or a bracket binds."""
    return bool(re.search(r"λ [^.]*$", text[:at]) or re.search(r"[({][^(){}:]*$", text[:at]) and re.match(r"[^(){}]* :", text[at:]))


def broken(line, indent, braces=0):
    """Returns a line as several lines, each indented more than the first, by its depth inside the
    braces of a clause."""
    places = [it for it in breaks_of(line) if it[1] >= braces]
    lines, start, now = [], 0, 0
    while len(line) - start + now > FIT:
        room = FIT - now
        near = [it for it in places if start + indent < it[0] <= start + room]
        far = [it for it in near if it[0] > start + room // 5]
        near = far or near
        if not near:
            break
        least = min(it[1] for it in near)
        loosest = min(it[2] for it in near if it[1] == least)
        at, depth, _ = max(it for it in near if it[1:] == (least, loosest))
        lines.append(" " * now + line[start:at])
        start, now = at + 1, indent + 4 + 2 * max(0, min(depth - braces + (loosest >= ARGUMENT), 4))
    return [*lines, " " * now + line[start:]]


def wrapped_comment(line, mark):
    indent = len(line) - len(line.lstrip())
    head = " " * indent + mark + " "
    words, lines, now = line[indent + len(mark) :].split(), [], head.rstrip()
    for word in words:
        if len(now) + 1 + len(word) > WIDTH and now.strip() != mark:
            lines.append(now)
            now = head.rstrip()
        now += " " + word
    return [*lines, now]


def imports(line):
    """Returns an import of many names as several imports, since `rt fmt` puts each name of a broken
    import on its own line. A name that does not fit on a line with its path is also broken so."""
    head, names, end = re.fullmatch(r"(.*\{)(.*)(\};?)", line).groups()
    groups = [[]]
    for name in names.split(", "):
        if groups[-1] and is_long(head + ", ".join([*groups[-1], name]) + end):
            groups.append([])
        groups[-1].append(name)
    lines = []
    for group in groups:
        one = head + ", ".join(group) + end
        lines += [one] if not is_long(one) else [head, f"  {group[0]},", end]
    return lines


def example(line):
    """Returns a statement of an example as several lines: the value of a `let` below the name, or
    the arguments of a call on a line each."""
    head, text = re.fullmatch(r"( *//[/!] +)(.*)", line).groups()
    if found := re.fullmatch(r"(let [^=]* =) ([^=].*)", text):
        return [head + found[1], f"{head}    {found[2]}"]
    if found := re.fullmatch(r"([\w:!]+\()(.*)(\);)", text):
        *first, last = split(found[2])
        arguments = [f"{head}    {it}," for it in first] + [f"{head}    {last}"]
        return [head + found[1], *arguments, head + found[3]]
    return [line]


def is_fixed(line):
    """Returns whether a line cannot be broken: it names or imports from a module of the checker, is
    a link in a comment, or is a parser as a type."""
    return bool(re.fullmatch(r"(pub |ghost )*use [^{}]*\{?| *//[/!] \S+| *⟦<[^⟧]* as [^⟧]*(⟧\.does \})?", line))


def wrapped_line(line, is_antt, is_fenced, is_inside):
    """Returns a line as several lines, inside or outside of an example or a ghost item."""
    stripped = line.lstrip()
    indent = len(line) - len(stripped)
    if not is_long(line) or is_fixed(stripped):
        return [line]
    if re.fullmatch(r"(pub |ghost )*use [^{}]*\{[^{}]*\};?", stripped):
        return imports(line)
    if is_antt and stripped.startswith("-- "):
        return wrapped_comment(line, "--")
    if stripped.startswith(("/// ", "//! ", "// ")):
        mark = stripped.split(" ")[0]
        is_table = stripped.startswith((f"{mark} |", f"{mark} -"))
        comment = [line] if is_table else wrapped_comment(line, mark)
        return example(line) if is_fenced else comment
    if is_antt or is_inside:
        return broken(line, indent)
    return broken(line, indent, 1) if stripped.startswith(GHOST) else [line]


def wrapped(text, is_antt):
    lines, is_fenced, open_braces = [], False, 0
    for line in text.split("\n"):
        stripped = line.lstrip()
        if stripped.startswith(("/// ```", "//! ```")):
            is_fenced = not is_fenced
        # A ghost item of several lines ends at the closing brace of its first brace.
        is_inside = open_braces > 0
        if is_inside or stripped.startswith(GHOST):
            open_braces += line.count("{") - line.count("}")
        lines += wrapped_line(line, is_antt, is_fenced, is_inside)
    return "\n".join(lines)


def files_below(root):
    for at, folders, names in os.walk(root):
        folders[:] = sorted(it for it in folders if it != "out")
        for name in sorted(names):
            if name.endswith((".rt", ".antt")):
                yield os.path.join(at, name)


def main(names):
    long = 0
    for name in names or files_below("crates"):
        with open(name, encoding="utf-8") as it:
            text = it.read()
        if names:
            text = wrapped(text, name.endswith(".antt"))
            with open(name, "w", encoding="utf-8") as it:
                it.write(text)
        for number, line in enumerate(text.split("\n"), 1):
            # The formatter keeps the closing brace of a clause on its line, and the import of
            # variants whole.
            is_kept = is_fixed(line) or ".TheVariants.{" in line
            if is_long(line.removesuffix(" }")) and not is_kept:
                long += 1
                print(f"{name}:{number}: {len(line)} columns, {len(line.encode())} bytes")
    return 1 if long else 0


if __name__ == "__main__":
    sys.exit(main(sys.argv[1:]))
