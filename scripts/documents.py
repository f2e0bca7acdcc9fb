"""Finds the programs of documents, for scripts/readme."""
import re
import sys

from registry.common import read

SAYS = re.compile(r"prints `([^`]+)`")


def parts(path):
    """The parts of a document: first line number, mark (of a block of code, otherwise `None`) and
    lines. A part of prose is a paragraph, heading, row or list item."""
    found, mark, before = [], None, ""
    for number, line in enumerate(read(path).splitlines(), 1):
        if line.startswith("```"):
            if mark is None:
                found.append((number + 1, line[3:].strip(), []))
            mark = line[3:].strip() if mark is None else None
        elif mark is not None:
            found[-1][2].append(line)
        elif line.strip():
            begins = re.match(r"#|\||- |\d+\. ", line) or not before.strip()
            if begins or found[-1][1] is not None:
                found.append((number, None, []))
            found[-1][2].append(line)
        before = line
    return found


def contracted(program, lines):
    """Adds the contract of a block to a program: its imports, and a function's head."""
    at = lines.index("")
    imports, head = "\n".join(lines[:at]), lines[at + 1 :]
    if head[0] + " {\n" not in program:
        sys.exit(f"the program of README.md has no function {head[0]}")
    program = program.replace("\nuse ", f"\n{imports}\n\nuse ", 1)
    return program.replace(head[0] + " {\n", "\n".join(head) + "\n{\n")


def programs(path):
    """The programs of a document: line number, text and expected output. One with a contract is the
    program before it, and prints the same."""
    all_parts, program, printed = parts(path), "", None
    for at, (number, mark, lines) in enumerate(all_parts):
        text = "\n".join(lines) + "\n"
        if mark == "rust" and "\nfn main(" in text:
            _, next_mark, next_lines = all_parts[at + 1]
            said = SAYS.search(" ".join(next_lines))
            if next_mark == "text":
                program, printed = text, "\n".join(next_lines) + "\n"
            else:
                program, printed = text, said[1] + "\n" if said else None
            yield number, program, printed
        elif mark == "rust contract":
            yield number, contracted(program, lines), printed
