"""The parsers of integers whose byte order is an argument, in `winnow_binary`."""
from family.common import camel, documented, write
from family.integers import FAILS, IMPORTS, WIDTHS, Integer

CHOSEN = "crates/winnow_binary/"


def chosen():
    """Returns the integers whose byte order is an argument, by name."""
    return {"%s%d" % (sign, bits): Integer(sign, bits) for sign in "ui" for bits in WIDTHS if bits != 8}


def chosen_function(name, one):
    row, number = one.sample()
    own = camel(name)
    return "\n".join(
        [
            documented("Returns a parser of %s in the byte order `endian`." % one.words()),
            "///",
            documented(FAILS),
            "///",
            "/// ```",
            '/// let input = b"%s;".as_slice();' % row,
            "/// let mut parser = %s(Endianness::Big);" % name,
            '/// assert_eq!(rt; parser.parse_peek(input), Ok::<_, EmptyError>((b";".as_slice(), %d)));' % number,
            "/// ```",
            "#[inline(always)]",
            "pub fn %s<Input, Error>(endian: Endianness) -> %s<Input, Error>" % (name, own),
            "where",
            "    Input: StreamIsPartial + ByteStream,",
            "    Error: ParserError<Input>,",
            "    ensures { result.endian ≡ endian }",
            "{",
            "    %s {" % own,
            "        endian,",
            "        marker: PhantomData,",
            "    }",
            "}",
        ]
    )


CHOSEN_FUNCTIONS = """//! Parsers of integers whose byte order is an argument.
//!
//! {head}
ghost use Rattle.std.specs.Prelude.{{◌≡◌}};

use crate::binary::impls::{{{structs}}};
use std::marker::PhantomData;
use stream_errors::parser_error::ParserError;
use streams::byte_stream::ByteStream;
use streams::stream::StreamIsPartial;
use winnow_integers::binary::Endianness;

{family}
"""

CHOSEN_STRUCT = (
    """//! {about}
//!
//! {head}
#![tactic(auto, using(crate::proofs::OrderLemmas::orders))]

ghost use Rattle.parser_definitions.specs.Integer.{{IntegerDoes}};
ghost use Rattle.parser_definitions.specs.Projects.Integers.{{integer_meets, integer_terms}};
ghost use Rattle.parser_definitions.specs.Projects.Integers.{{some_bytes}};
ghost use Rattle.winnow_integers.specs.Integer.{{{value}}};
ghost use Rattle.winnow_integers.specs.declared.binary.endianness.Endianness.{{Endianness}};

use std::marker::PhantomData;
"""
    + IMPORTS
    + """use winnow_integers::binary::{{Endianness, be_{name}, le_{name}}};

/// The parser that [`{name}`](crate::binary::{name}) returns.
///
/// ```
/// let mut parser: {kind}<_, _> = {name}(Endianness::Big);
/// let input = b"{row};".as_slice();
/// assert_eq!(rt; parser.parse_peek(input), Ok::<_, EmptyError>((b";".as_slice(), {number})));
/// ```
#[derive(Drop)]
pub struct {kind}<I, E> {{
    pub(crate) endian: Endianness,
    pub(crate) marker: PhantomData<(I, E)>,
}}

impl<I: StreamIsPartial + ByteStream, E: ParserError<I>> Parser<I, {type}, E> for {own} {{
    ghost State = {{ Endianness }};

    ghost state = {{ λ s. s.endian }};

    ghost does = {{ IntegerDoes {width} {by} I.reading }};

    ghost terms = {{ integer_terms {width} {by} }};

    ghost lawful = {{ integer_meets {width} {by} I.reading (some_bytes {below}) }};

    #[inline(always)]
    fn parse_next(&mut self, input: &mut I) -> Result<{type}, E> {{
        match self.endian {{
            Endianness::Big => be_{name}(input),
            Endianness::Little | Endianness::Native => le_{name}(input),
        }}
    }}
}}
"""
)

def write_chosen():
    rows = chosen()
    functions = "\n\n".join(chosen_function(name, one) for name, one in rows.items())
    kinds = [camel(name) for name in rows]
    write(CHOSEN + "src/binary/chosen.rt", CHOSEN_FUNCTIONS, family=functions, structs=", ".join(kinds))
    for name, one in rows.items():
        row, number = one.sample()
        kind = camel(name)
        text = "%s in a byte order that is an argument." % (one.words()[0].upper() + one.words()[1:])
        parts = {"kind": kind, "own": kind + "<I, E>"}
        parts |= {"by": one.value, "below": one.width - 1} | vars(one)
        write(CHOSEN + "src/binary/impls/%s.rt" % name, CHOSEN_STRUCT, about=text, name=name, row=row, number=number, **parts)
