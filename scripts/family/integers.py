"""The parsers of integers as bytes, in the crate `winnow_integers`."""
from family.common import camel, documented, write

FIXED = "crates/winnow_integers/"
WIDTHS = {8: 1, 16: 2, 24: 3, 32: 4, 64: 8, 128: 16}
ORDERS = {"be": ("Big", "big-endian"), "le": ("Little", "little-endian")}
FILES = {"be": "big_endian", "le": "little_endian"}


class Integer:
    """An integer: its sign, its number of bits, and its byte order."""

    def __init__(self, sign, bits, order="be"):
        self.sign, self.bits, self.order = sign, bits, order
        self.width = WIDTHS[bits]
        self.type = "%s%d" % (sign, 32 if bits == 24 else bits)
        self.value = "signed_value" if sign == "i" else "unsigned_value"
        self.constructor, self.endian = ORDERS[order]

    def words(self, endian=""):
        sign = "a signed" if self.sign == "i" else "an unsigned"
        return "%s %d-byte%s integer" % (sign, self.width, endian and " " + endian)

    def number(self):
        """Returns the body's last expression, computed from `bytes`."""
        if self.bits != 24:
            return "%s::from_%s_bytes(bytes)" % (self.type, self.order)
        if self.sign == "i":
            return "signed_24(%s)" % ("bytes" if self.order == "be" else "[bytes[2], bytes[1], bytes[0]]")
        row = "0, bytes[0], bytes[1], bytes[2]" if self.order == "be" else "bytes[0], bytes[1], bytes[2], 0"
        return "u32::from_%s_bytes([%s])" % (self.order, row)

    def sample(self):
        """Returns bytes as a Rust literal, and their value: -2 if signed, otherwise 258, or 2 if
        there is one byte."""
        if self.sign == "i":
            row, number = [0xFF] * (self.width - 1) + [0xFE], -2
        else:
            row, number = ([0] * self.width + [1, 2])[-self.width :], 2 if self.width == 1 else 258
        row = row if self.order == "be" else row[::-1]
        return "".join("\\x%02X" % byte for byte in row), number


def fixed():
    """Returns the integers of fixed byte orders, by name."""
    found = {"%s_%s%d" % (order, sign, bits): Integer(sign, bits, order) for order in ORDERS for sign in "ui" for bits in WIDTHS}
    return found | {"u8": Integer("u", 8), "i8": Integer("i", 8)}


def about(one):
    """Returns the words for an integer, with an article."""
    return one.words(one.endian if one.width > 1 else "")


FAILS = "Fails without consuming input if fewer bytes remain. On partial input it then returns `Incomplete`; the need is the number of missing bytes."
FAILS_ONE = "Fails if no bytes remain. On partial input it then returns `Incomplete` with a need of 1."


def function(name, one):
    row, number = one.sample()
    return "\n".join(
        [
            documented("Parses %s." % about(one)),
            "///",
            documented(FAILS_ONE if one.width == 1 else FAILS),
            "///",
            "/// ```",
            '/// let mut input = b"%s;".as_slice();' % row,
            "/// assert_eq!(rt; %s(&mut input), Ok::<_, EmptyError>(%d));" % (name, number),
            '/// assert_eq!(rt; input, b";".as_slice());',
            "/// ```",
            "#[inline(always)]",
            "pub fn %s<Input, Error>(input: &mut Input) -> Result<%s, Error>" % (name, one.type),
            "where",
            "    Input: StreamIsPartial + ByteStream,",
            "    Error: ParserError<Input>,",
            "    ensures ran { Ran Input.reading (IntegerDoes %d (λ (_ : ⊤). %s %s) Input.reading) Error.form tt (Input.view input.old) (answer_by Error.kind result) tt (Input.view input.new) }" % (one.width, one.value, one.constructor),
            "{",
            "    let bytes = take_bytes::<%d, Input, Error>(input)?;" % one.width,
            "    Ok(%s)" % one.number(),
            "}",
        ]
    )


FUNCTIONS = """//! Parsers of {first} integers{others}.
//!
//! {head}
#![tactic(auto, using(crate::proofs::IntegerStdLemmas::integers))]
ghost use Rattle.std.specs.Prelude.{{⊤}};
ghost use Rattle.stream_errors.specs.Form.{{answer_by}};
ghost use Rattle.parser_definitions.specs.Does.{{Ran}};
ghost use Rattle.parser_definitions.specs.Integer.{{IntegerDoes}};
ghost use Rattle.winnow_integers.specs.Integer.{{signed_value, unsigned_value}};
ghost use Rattle.winnow_integers.specs.declared.binary.endianness.Endianness.TheVariants.{{{constructor}}};

use crate::binary::bytes::{{signed_24, take_bytes}};
use stream_errors::parser_error::ParserError;
use streams::byte_stream::ByteStream;
use streams::stream::StreamIsPartial;

{family}
"""

# The proof of a wide integer: the value is the one that std computes. The prover finds the others.
ANSWERS = """-- {head}
use Rattle.std.proofs.Common.{{rules, ap, ◌∙◌}}
use Rattle.std.specs.Int.{{w{bits}}}
use Rattle.winnow_integers.specs.Integer.{{{value}}}
use Rattle.winnow_integers.specs.Integer.Laws.{{integer_made}}
use Rattle.winnow_integers.specs.declared.binary.endianness.Endianness.TheVariants.{{{constructor}}}
use Rattle.winnow_integers.{lemmas}.{{{lemma}}}
use Rattle.winnow_integers.proofs.binary.{file}.{name}.Goals as goal

pub returns : goal.returns
returns g c = record {{
  ran = integer_made {width} (λ _ bytes. bytes) (λ _. {value} {constructor}) _ _ _ _ _ _ _ _
      (λ bytes is. {same} ∙ ap ({value} {constructor}) is) c.in_ok-bytes.ensures.ran;
}}
"""
SAME = {
    "u": "c.from_{order}_bytes.ensures ∙ {lemma} w{bits} c.in_ok-bytes.bytes (search rules)",
    "i": "{lemma} w{bits} c.in_ok-bytes.bytes _ c.from_{order}_bytes.ensures (search rules) (search rules)",
}
LEMMAS = {"u": "from_%s", "i": "signed_%s"}
FILES_OF_LEMMAS = {"u": "specs.Integer.Std", "i": "proofs.IntegerStdLemmas"}
WIDE = {"u": 64, "i": 32}

IMPORTS = """use stream_errors::parser_error::ParserError;
use streams::byte_stream::ByteStream;
use streams::stream::StreamIsPartial;
use winnow_core::parser::Parser;
"""

STRUCT = (
    """//! {about}
//!
//! {head}
ghost use Rattle.std.specs.Prelude.{{⊤}};
ghost use Rattle.parser_definitions.specs.Integer.{{IntegerDoes}};
ghost use Rattle.parser_definitions.specs.Projects.Integers.{{integer_meets, integer_terms}};
ghost use Rattle.parser_definitions.specs.Projects.Integers.{{some_bytes}};
ghost use Rattle.winnow_integers.specs.Integer.{{{value}}};
ghost use Rattle.winnow_integers.specs.declared.binary.endianness.Endianness.TheVariants.{{{constructor}}};

use crate::binary::{name};
"""
    + IMPORTS
    + """
/// The parser [`{name}`](crate::binary::{name}).
///
/// ```
/// let input = b"{row};".as_slice();
/// assert_eq!(rt; {own}.parse_peek(input), Ok::<_, EmptyError>((b";".as_slice(), {number})));
/// ```
#[derive(Clone, Copy, Debug)]
pub struct {own};

impl<I: StreamIsPartial + ByteStream, E: ParserError<I>> Parser<I, {type}, E> for {own} {{
    ghost State = {{ ⊤ }};

    ghost state = {{ λ _. tt }};

    ghost does = {{ IntegerDoes {width} {by} I.reading }};

    ghost terms = {{ integer_terms {width} {by} }};

    ghost lawful = {{ integer_meets {width} {by} I.reading (some_bytes {below}) }};

    #[inline(always)]
    fn parse_next(&mut self, input: &mut I) -> Result<{type}, E> {{
        {name}(input)
    }}
}}
"""
)


LAWS = """//! Laws of integers, each the contract of a function with an empty body.
//!
//! {head}
ghost use Rattle.winnow_integers.specs.IntegerLaws.{{ReadsReversed}};

use crate::binary::impls::{{{structs}}};
use stream_errors::parser_error::ParserError;
use streams::byte_stream::ByteStream;
use streams::stream::StreamIsPartial;
use winnow_core::parser::Parser;

/// A little-endian integer is the big-endian integer of the reversed bytes.
///
/// If enough bytes remain, the little-endian parser returns the same value and the same rest as the
/// big-endian parser does on the input whose first bytes are reversed.
pub fn little_endian_is_big_endian_of_the_reversed_bytes<I, E>()
where
    I: StreamIsPartial + ByteStream,
    E: ParserError<I>,
{clauses}
{{}}
"""


def law_clause(one):
    """Returns the law's clause for an integer in both byte orders."""
    name = "%s%d" % (one.sign, one.bits)
    does = ["⟦<%s%s as Parser<I, %s, E>>⟧.does" % (order, name.capitalize(), one.type) for order in ("Le", "Be")]
    return "    ensures %s%d { ReadsReversed %d %s }" % ("signed_" if one.sign == "i" else "unsigned_", one.bits, one.width, "\n        ".join(does))


LAW_ANSWERS = """-- {head}
use Rattle.winnow_integers.specs.Integer.{{signed_of, value_of}}
use Rattle.winnow_integers.proofs.IntegerLemmas.{{reads_reversed}}
use Rattle.winnow_integers.proofs.laws.{law}.Goals as goal

{answers}
"""
LAW_ANSWER = """pub {0} : goal.{0}
{0} g c = reads_reversed {1} g.I.Stream.reading g.met.I.ByteStream.counts_bytes {2}"""


def law_answer(one):
    """Returns the proof of the clause for an integer in both byte orders."""
    sign, value = ("signed", "signed_of") if one.sign == "i" else ("unsigned", "value_of")
    return LAW_ANSWER.format("returns-clause-%s_%d" % (sign, one.bits), one.width, value)


def write_laws():
    structs = ", ".join(sorted(camel(name) for name in fixed() if "_" in name))
    clauses = "\n".join(law_clause(Integer(sign, bits)) for sign in "ui" for bits in WIDTHS)
    write(FIXED + "src/laws.rt", LAWS, structs=structs, clauses=clauses)
    law = "little_endian_is_big_endian_of_the_reversed_bytes"
    answers = "\n\n".join(law_answer(Integer(sign, bits)) for sign in "ui" for bits in WIDTHS)
    write(FIXED + "proofs/laws/%s/Answers.antt" % law, LAW_ANSWERS, law=law, answers=answers)


def write_fixed():
    rows = fixed()
    for order, file in FILES.items():
        family = "\n\n".join(function(name, one) for name, one in rows.items() if one.order == order)
        constructor, first = ORDERS[order]
        others = " and of 1-byte integers" if order == "be" else ""
        write(FIXED + "src/binary/%s.rt" % file, FUNCTIONS, family=family, constructor=constructor, first=first, others=others)
    for name, one in rows.items():
        row, number = one.sample()
        own = camel(name)
        parts = {"own": own}
        parts |= {"by": "(λ (_ : ⊤). %s %s)" % (one.value, one.constructor), "below": one.width - 1} | vars(one)
        text = about(one)[0].upper() + about(one)[1:] + "."
        write(FIXED + "src/binary/impls/%s.rt" % name, STRUCT, about=text, name=name, row=row, number=number, **parts)
        if one.bits >= WIDE[one.sign]:
            lemma = LEMMAS[one.sign] % one.order
            same = SAME[one.sign].format(lemma=lemma, order=one.order, bits=one.bits)
            answers = FIXED + "proofs/binary/%s/%s/Answers.antt" % (FILES[one.order], name)
            write(answers, ANSWERS, file=FILES[one.order], name=name, lemma=lemma, same=same, lemmas=FILES_OF_LEMMAS[one.sign], **vars(one))


def write_integers():
    write_fixed()
    write_laws()
