"""The test, the edit and the note that `scripts/new.py` creates for a parser."""
import re

from registry.common import TOP, camel, read
from registry.edits import FOLDER, Written, edits_of, right_of, text_of

# The tests of a crate's parsers, one file each: the folder, and the file that declares the modules.
TESTS = {
    "winnow_ascii": ("tokens/ascii", "tokens/ascii.rs"),
    "winnow_binary": ("binary", "binary/lib.rs"),
    "winnow_bits": ("bits", "bits/lib.rs"),
    "winnow_comb": ("combinators", "combinators/lib.rs"),
    "winnow_escapes": ("escapes/ascii", "escapes/ascii.rs"),
    "winnow_integers": ("binary", "binary/lib.rs"),
    "winnow_numbers": ("tokens/ascii", "tokens/ascii.rs"),
    "winnow_repeat": ("combinators/multi", "combinators/multi.rs"),
    "winnow_separated": ("combinators/multi", "combinators/multi.rs"),
    "winnow_token": ("tokens/token", "tokens/token.rs"),
}
HEAD = """//! {doc}
use std::process::Abort;
use stream_errors::parser_error::ParserError;
{more}use test_support::at_text;
use test_support::outcomes::Ending::Takes;
use test_support::outcomes::{outcomes};
use test_support::rows::ends_each;
use test_support::texts::OfText;
use {named};

fn {name}_of_text<I: {stream}, E: ParserError<I>>(rt: &impl Abort) {{
    let rows = [
{rows}    ];
    ends_each::<I, {output}, E, _>(rt, "{name}", {call}, &rows);
}}

#[test]
fn {name}(rt: HostRuntime) {{
    at_text!(rt; {name}_of_text);
}}
"""
# The parts of a test, by kind. `OF` stands for the parser's module and its crate.
TEST = {
    "leaf": {
        "more": "",
        "stream": "OfText",
        "outcomes": "{BACKTRACKS, lacks}",
        "named": "OF::impls::KIND",
        "output": "_",
        "call": "KIND",
        "rows": [
            '("", BACKTRACKS, lacks(1))',
            '("a;", Takes(1), Takes(1))',
            '("é;", Takes(2), Takes(2))',
        ],
    },
    "combinator": {
        "more": "use stream_searches::compare::Compare;\n",
        "stream": "OfText + Compare<&'static str>",
        "outcomes": "LACKS",
        "named": "OF",
        "output": "Option<I::Slice>",
        "call": 'MODULE::NAME("ab")',
        "rows": [
            '("", Takes(0), LACKS)',
            '("ab;", Takes(2), Takes(2))',
            '("ac", Takes(0), Takes(0))',
        ],
    },
}
# An edit of the struct's file: its name, a line that occurs once, and a wrong replacement.
EDIT = {
    "leaf": (
        "skips_a_token",
        "{name}(input)",
        "{{ let _token = input.next_token(); {name}(input) }}",
    ),
    "combinator": (
        "answers_none_for_other_errors",
        "Ok(output) => Ok(Some(output)),",
        "Ok(output) => Ok(Some(output)), "
        "Err(error) if !error.is_memory() => {{ input.reset(&start); Ok(None) }}",
    ),
}


def summary(place):
    """Returns the first sentence of the function's documentation."""
    found = re.search(rf"^/// ((?:(?!///).)*)\n(?:(?:///|#\[).*\n)*pub fn {place.name}\b", read(place.file), re.MULTILINE)
    return found[1] if found else f"The parser {place.name}."


def test_of(kind, place):
    """Returns the file of the parser's test and its text, and the file that declares the module and
    its text."""
    folder, root = TESTS[place.crate.name]
    of = f"{place.crate.name}::{place.module}"
    words = {key: it for key, it in TEST[kind].items() if key != "rows"}
    named = {"OF": of, "KIND": camel(place.name), "MODULE": place.module, "NAME": place.name}
    for old, new in named.items():
        words = {key: it.replace(old, new) for key, it in words.items()}
    rows = "".join(f"        {row},\n" for row in TEST[kind]["rows"])
    text = HEAD.format(doc=summary(place), name=place.name, rows=rows, **words)
    root = TOP / "tests" / root
    return TOP / "tests" / folder / f"{place.name}.rs", text, root, with_module(read(root), place.name)


def with_module(text, name):
    """Returns a text of module declarations with one more module, in order."""
    mods = re.findall(r"(?:^#\[cfg\(test\)\]\n)?^mod \w+;\n", text, re.MULTILINE)
    mark = "#[cfg(test)]\n" if mods[0].startswith("#") else ""
    old = "".join(mods)
    new = sorted([*mods, f"{mark}mod {name};\n"], key=lambda it: it.split()[-1])
    return text.replace(old, "".join(new))


def beside(kind, place):
    """Returns the other files of a parser with their texts; first the test, the edit and the
    note."""
    test, text, root, named = test_of(kind, place)
    what, old, new = EDIT[kind]
    file = place.impls.relative_to(place.crate)
    lines = f"file: {file}\nold: {old}\nnew: {new}\n".format(name=place.name)
    edit = Written(place.crate.name, f"{place.name}_{what}", lines)
    edits = text_of([*edits_of(place.crate.name), edit], right_of(place.crate.name))
    note = TOP / "changes" / f"{place.name}.md"
    notes = read(note) if note.is_file() else ""
    return {
        test: text,
        FOLDER / f"{place.crate.name}.txt": edits,
        note: f"{notes}- `{place.name}`: {summary(place)}\n",
        root: named,
    }
