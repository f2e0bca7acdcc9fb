//! A filter language, as `a = 1 and not b > 2`: comparisons of the fields of a record, joined by
//! words. The value of a filter is whether it accepts the record.

ghost use Rattle.winnow.specs.Input.{IsEndOf};

use std::alloc::Global;
use std::fmt::{self, Display, Formatter};
use winnow::ascii::impls::{Alpha1, DecUint, Space0};
use winnow::combinator::{
    FoldBinary, FoldUnary, Infix, Prefix, alt, cut_err, delimited, expression, not, preceded,
    terminated,
};
use winnow::error::{ContextError, ErrMode, ParseFault};
use winnow::prelude::*;
use winnow::token::one_of;
use winnow::{Func, FuncWith};

type Message = ContextError<Expected>;

/// What was expected. The prover covers recursive functions only if contexts have no lifetime.
#[derive(Clone, Copy, Debug)]
enum Expected {
    Sign,
    Number,
    Bracket,
    Operand,
}

impl Display for Expected {
    fn fmt<W: fmt::Write>(&self, f: &mut Formatter<W>) -> fmt::Result {
        f.write_str(match self {
            Expected::Sign => "`=`, `<` or `>`",
            Expected::Number => "a number",
            Expected::Bracket => "`)`",
            Expected::Operand => "a comparison, `not` or `(`",
        })
    }
}

/// A record.
#[derive(Clone, Copy)]
struct Record {
    a: u32,
    b: u32,
}

/// A word between two filters.
#[derive(Clone, Copy, Drop)]
enum Joint {
    And,
    Or,
}

impl<I: Stream, E: ParserError<I>> FoldBinary<I, bool, E> for Joint {
    ghost folds = { λ _ _ i _ _ _ j. IsEndOf I.reading j i };

    ghost leaves_ends = { λ _ _ _ _ _ _ _ ends. ends };

    fn apply(&self, _input: &mut I, left: bool, right: bool) -> Result<bool, E> {
        match self {
            Joint::And => Ok(left && right),
            Joint::Or => Ok(left || right),
        }
    }
}

/// The word `not`.
#[derive(Clone, Copy, Drop)]
struct Negate;

impl<I: Stream, E: ParserError<I>> FoldUnary<I, bool, E> for Negate {
    ghost folds = { λ _ _ i _ _ j. IsEndOf I.reading j i };

    ghost leaves_ends = { λ _ _ _ _ _ _ ends. ends };

    fn apply(&self, _input: &mut I, operand: bool) -> Result<bool, E> {
        Ok(!operand)
    }
}

/// Parses a word, and the spaces after it.
fn read_word<'i>(word: &'static str, input: &mut &'i str) -> Result<&'i str, ErrMode<Message>> {
    let in_word = ('a'..='z', 'A'..='Z');
    terminated(word, (not(one_of(in_word)), Space0)).parse_next(input)
}

/// Parses a comparison, and the spaces after it. An error after the sign is a cut.
fn read_comparison(
    (alloc, record): (Global, Record),
    input: &mut &str,
) -> Result<bool, ErrMode<Message>> {
    let field = Alpha1.verify_map(|name: &str| match name {
        "a" => Some(record.a),
        "b" => Some(record.b),
        _ => None,
    });
    let sign = alt(("=", "<", ">")).context(alloc, Expected::Sign);
    let number = cut_err(DecUint.context(alloc, Expected::Number));
    let (field, _, sign, _, number, _): (u32, _, &str, _, u32, _) = (
        field, Space0, sign, Space0, number, Space0,
    ).parse_next(input)?;
    match sign {
        "=" => Ok(field == number),
        "<" => Ok(field < number),
        _ => Ok(field > number),
    }
}

/// Parses a filter whose brackets are nested at most `depth` deep. The message for an operand is
/// the context of the prefix, which is tried last.
fn read_filter(
    alloc: Global,
    depth: usize,
    record: Record,
    input: &mut &str,
) -> Result<bool, ErrMode<Message>> {
    let Some(below) = depth.checked_sub(1) else {
        return Err(ErrMode::Cut(ContextError::from_input(input)));
    };
    let inner = Func(|input: &mut &str| read_filter(alloc, below, record, input));
    let closed = cut_err(')'.context(alloc, Expected::Bracket));
    let brackets = delimited(('(', Space0), inner, (closed, Space0));
    let operand = alt((FuncWith((alloc, record), read_comparison), brackets));
    let negate = FuncWith("not", read_word).value(Prefix(3, Negate));
    let and = FuncWith("and", read_word).value(Infix::Left(2, Joint::And));
    let or = FuncWith("or", read_word).value(Infix::Left(1, Joint::Or));
    expression(alloc, operand)
        .prefix(negate.context(alloc, Expected::Operand))
        .infix(alt((and, or)))
        .parse_next(input)
}

/// Parses a whole text as a filter.
fn accepts<'i>(
    alloc: Global,
    record: Record,
    text: &'i str,
) -> Result<bool, ParseFault<&'i str, Message>> {
    let filter = Func(|input: &mut &str| read_filter(alloc, 8, record, input));
    Parser::<_, _, ErrMode<_>>::parse(&mut preceded(Space0, filter), text)
}

#[test]
fn values(rt: HostRuntime) {
    let record = Record { a: 1, b: 2 };
    for (text, value) in [
        ("a = 1", true),
        ("a=2", false),
        ("a = 1 and not b > 2", true),
        ("not a = 1 or b = 2", true),
        ("not (a = 1 or b = 2)", false),
        ("a = 2 and b = 9 or b = 2", true),
        ("a = 2 and (b = 9 or b = 2)", false),
        ("b = 2 or a = 2 and b = 9", true),
        ("not not a < 2", true),
        (" ( ( b > 1 ) ) ", true),
    ] {
        assert_eq!(rt; accepts(rt.alloc(), record, text).ok(), Some(value));
    }
}

#[test]
fn messages(rt: HostRuntime) {
    let record = Record { a: 1, b: 2 };
    for (text, message) in [
        (
            "",
            "parse error at line 1, column 1\n  |\n1 | \n  | ^\n\
             expected a comparison, `not` or `(`",
        ),
        (
            "a = 1 and",
            "parse error at line 1, column 10\n  |\n1 | a = 1 and\n  |          ^\n\
             expected a comparison, `not` or `(`",
        ),
        (
            "a = 1 or c = 2",
            "parse error at line 1, column 10\n  |\n1 | a = 1 or c = 2\n  |          ^\n\
             expected a comparison, `not` or `(`",
        ),
        (
            "a = x",
            "parse error at line 1, column 5\n  |\n1 | a = x\n  |     ^\n\
             expected a number",
        ),
        (
            "(a = 1",
            "parse error at line 1, column 7\n  |\n1 | (a = 1\n  |       ^\n\
             expected `)`",
        ),
    ] {
        match accepts(rt.alloc(), record, text) {
            Ok(_) => assert!(rt; false),
            Err(fault) => {
                let printed = format!(in rt.alloc(); "{fault}");
                assert!(rt; matches!(&printed, Ok(printed) if printed.as_str() == message));
            }
        }
    }
}
