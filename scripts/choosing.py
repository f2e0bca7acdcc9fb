"""The tables of `tests/parsers.md` as tests. A row has a parser, its input, the rest of the input,
and the result."""
import re

from registry.common import read

HEAD = ["Parser", "Input", "Rest", "Result"]
# Runs a row, and returns the result and the rest next to the expected ones. The rest is `None` if
# it is not compared.
RUN = (
    "use std::alloc::Global; use std::fmt::Debug; type Ends<I, O> = "
    "(Result<O, ErrMode<EmptyError>>, Option<I>); fn row<I: Stream + PartialEq + Debug, "
    "O: PartialEq + Debug + Drop, P: Parser<I, O, ErrMode<EmptyError>> + Drop>("
    "mut parser: P, mut input: I, want: Ends<I, O>) -> (Ends<I, O>, Ends<I, O>) { "
    "let answer = parser.parse_next(&mut input); "
    "let left = if want.1.is_some() { Some(input) } else { None }; ((answer, left), want) }"
)
BACKTRACK = "ErrMode::<EmptyError>::from_input(&\"\")"
TEXT = re.compile(r"(b?)\"(?:[^\"\\]|\\.)*\"")
LIST = re.compile(r"\[([^\]]*)\]")


def cells(line):
    """The cells of a row; a bar within one is escaped by a backslash."""
    return [it.replace("\\|", "|").strip() for it in re.split(r"(?<!\\)\|", line.strip())[1:-1]]


def code(cell):
    """The code of a cell, its byte strings as slices."""
    return TEXT.sub(lambda found: found[0] + ".as_slice()" * bool(found[1]), cell.strip("`"))


def answer(cell):
    """The result in a cell: an output if it is code, otherwise an error."""
    if cell == "backtrack":
        return f"Err({BACKTRACK})"
    if cell == "cut":
        return f"Err({BACKTRACK}.cut())"
    if found := re.fullmatch(r"incomplete, (\d+|unknown)", cell):
        missing = 0 if found[1] == "unknown" else found[1]
        return f"Err(ErrMode::Incomplete(Needed::new({missing})))"
    if not re.fullmatch(r"`[^`]+`", cell):
        raise SystemExit(f"{cell} is not a result")
    there = '.expect(&rt, "there is memory")'
    text = LIST.sub(lambda found: f"vec![in alloc; {found[1]}]{there}", code(cell))
    text = text.replace("vec![in alloc; ]" + there, "Vec::new(alloc)")
    text = re.sub(r"String::from\((.*)\)", rf"String::from_str(alloc, \1){there}", text)
    return f"Ok({text})"


def tables(path):
    """The tables of a page: the number of the line below the head, and a line of code for that line
    and for each row, with the imports that the paragraph above names."""
    start, lines, uses = 0, [], ""
    for number, line in enumerate([*read(path).splitlines(), ""], 1):
        if not line.startswith("|"):
            if lines:
                yield start, lines
            start, lines = 0, []
            named = " ".join(re.findall(r"`(use [^`]*;)`", line))
            uses = named if line.strip() else uses
        elif cells(line) == HEAD:
            start = number + 1
            lines = [f"{uses} {RUN}"]
        elif lines and number > start:
            parser, taken, left, said = cells(line)
            left = f"Some({code(left)})" if left else "None"
            parts = f"{parser.strip('`')}, {code(taken)}, ({answer(said)}, {left})"
            lines.append(f"let (got, want) = row({parts}); assert_eq!(rt; got, want);")
