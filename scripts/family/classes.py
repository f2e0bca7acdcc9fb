"""The parsers of ASCII character classes, in the crate `winnow_ascii`."""
from family.common import camel, documented, write

CLASSES = [
    ("alpha", "ASCII letters", "a letter", "Letters", "IsAlpha", "ab", "1"),
    ("digit", "ASCII digits", "a digit", "DecimalDigits", "IsDecDigit", "12", ";"),
    ("hex_digit", "hexadecimal digits in either case", "a hexadecimal digit", "HexadecimalDigits", "IsHexDigit", "1fA", "g"),
    ("oct_digit", "octal digits", "an octal digit", "OctalDigits", "IsOctDigit", "17", "8"),
    ("alphanumeric", "ASCII letters and digits", "a letter or a digit", "Alphanumerics", "IsAlphanum", "a1", ";"),
    ("space", "spaces and tabs", "a space or a tab", "Spaces", "IsSpace", " \\t", "a"),
    ("multispace", "spaces, tabs, carriage returns and line feeds", "such a character", "Multispaces", "IsMultispace", " \\n", "a"),
]


def class_parsers():
    """Returns each class with its minimum number of members."""
    return [(*row, least) for row in CLASSES for least in (0, 1)]


def example(call, text, front, rest):
    """Returns the lines of an example of a call that succeeds."""
    return [
        'let mut input = "%s";' % text,
        'assert_eq!(rt; %s(&mut input), Ok::<_, EmptyError>("%s"));' % (call, front),
        'assert_eq!(rt; input, "%s");' % rest,
    ]


def class_function(name, members, one, chars, is_member, front, rest, least):
    call = "%s%d" % (name, least)
    if least:
        fails = "Backtracks without consuming input if the input does not start with %s." % one
        other = [
            'let answer: Result<_, ErrMode<EmptyError>> = %s(&mut "%s");' % (call, rest),
            "assert!(rt; matches!(answer, Err(ErrMode::Backtrack(_))));",
        ]
    else:
        fails = "Never backtracks on complete input."
        other = ['assert_eq!(rt; %s(&mut "%s"), Ok::<_, EmptyError>(""));' % (call, rest)]
    fails += " On partial input it returns `Incomplete` with a need of 1, without consuming input, if all remaining input (possibly none) matches."
    return "\n".join(
        [
            documented("Parses %s %s and returns their slice." % ("one or more" if least else "zero or more", members)),
            "///",
            documented(fails),
            "///",
            "/// ```",
            *("/// " + line for line in example(call, front + rest, front, rest)),
            *("/// " + line for line in other),
            "/// ```",
            "#[inline(always)]",
            "pub fn %s<Input, Error>(input: &mut Input) -> Result<Input::Slice, Error>" % call,
            "where",
            "    Input: StreamIsPartial,",
            "    Input::Token: AsChar,",
            "    Error: ParserError<Input>,",
            "    ensures ran { Ran {S = ⊤} Input.reading",
            "        (ClassDoes %s %d Input.Token.code Input.seen_as Input.reading) Error.form tt"
            % (is_member, least),
            "        (Input.view input.old) (answer_by Error.kind result) tt (Input.view input.new) }",
            "{",
            "    %s(input, %s)" % ("some_of" if least else "any_of", chars),
            "}",
        ]
    )


CLASS_FUNCTIONS = """//! Parsers of ASCII character classes.
//!
//! {head}
ghost use Rattle.std.specs.Prelude.{{⊤}};
ghost use Rattle.stream_errors.specs.Form.{{answer_by}};
ghost use Rattle.stream_sets.specs.AsChar.{{{members}}};
ghost use Rattle.parser_definitions.specs.Class.{{ClassDoes}};
ghost use Rattle.parser_definitions.specs.Does.{{Ran}};

use crate::ascii::members::{{any_of, some_of}};
use stream_errors::parser_error::ParserError;
use stream_sets::as_char::AsChar;
use stream_sets::classes::{{{sets}}};
use streams::stream::StreamIsPartial;

{family}
"""


CLASS_STRUCT = """//! {about}
//!
//! {head}
ghost use Rattle.std.specs.Prelude.{{⊤}};
ghost use Rattle.stream_sets.specs.AsChar.{{{member}}};
ghost use Rattle.parser_definitions.specs.Class.{{ClassDoes}};
ghost use Rattle.parser_definitions.specs.Projects.Lines.{{class_meets, class_terms{laws}}};

use crate::ascii::{call};
use stream_errors::parser_error::ParserError;
use stream_sets::as_char::AsChar;
use streams::stream::StreamIsPartial;
use winnow_core::parser::Parser;

/// The parser [`{call}`](crate::ascii::{call}).
///
/// ```
/// assert_eq!(rt; {kind}.parse_peek("{front}{rest}"), Ok::<_, EmptyError>(("{rest}", "{front}")));
/// ```
#[derive(Clone, Copy, Debug, PartialEq, Eq)]
pub struct {kind};

impl<I: StreamIsPartial, E: ParserError<I>> Parser<I, I::Slice, E> for {kind}
where
    I::Token: AsChar,
{{
    ghost State = {{ ⊤ }};

    ghost state = {{ λ _. tt }};

    ghost does = {{ ClassDoes {member} {least} I.Token.code I.seen_as I.reading }};

    ghost terms = {{ class_terms {consumes} {member} {least} I.Token.code I.seen_as I.reading }};

    ghost lawful = {{ class_meets {member} {least} I.Token.code I.seen_as I.reading {some} }};

    #[inline(always)]
    fn parse_next(&mut self, input: &mut I) -> Result<I::Slice, E> {{
        {call}(input)
    }}
}}
"""

def write_classes():
    ascii_crate = "crates/winnow_ascii/"
    rows = class_parsers()
    parts = {
        "members": ", ".join(row[4] for row in CLASSES),
        "sets": ", ".join(row[3] for row in CLASSES),
    }
    functions = "\n\n".join(class_function(*row) for row in rows)
    write(ascii_crate + "src/ascii/classes.rt", CLASS_FUNCTIONS, family=functions, **parts)
    for name, members, one, chars, is_member, front, rest, least in rows:
        call = "%s%d" % (name, least)
        about = "%s %s." % ("One or more" if least else "Zero or more", members)
        blocks = {
            "laws": ", one_is_some" if least else "",
            "consumes": "⊤" if least else "⊥",
            "some": "(λ _. one_is_some)" if least else "(λ never. absurd never)",
        }
        write(ascii_crate + "src/ascii/impls/%s.rt" % call, CLASS_STRUCT, about=about, **blocks, call=call, kind=camel(call), member=is_member, least=least, front=front, rest=rest)
