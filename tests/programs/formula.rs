//! Formulas with prefix, postfix and infix operators, as `-2^2! + 1`, and their values.

ghost use Rattle.winnow.specs.Input.{IsEndOf};

use std::alloc::Global;
use winnow::Func;
use winnow::ascii::impls::{DecUint, Space0};
use winnow::combinator::{
    FoldBinary, FoldUnary, Infix, Postfix, Prefix, alt, delimited, expression, terminated,
};
use winnow::error::{EmptyError, ErrMode, ParseFault};
use winnow::prelude::*;

/// An operator of two operands.
#[derive(Clone, Copy, Drop)]
enum Binary {
    Add,
    Subtract,
    Multiply,
    Divide,
    Raise,
}

impl<I: Stream, E: ParserError<I>> FoldBinary<I, i64, E> for Binary {
    ghost folds = { λ _ _ i _ _ _ j. IsEndOf I.reading j i };

    ghost leaves_ends = { λ _ _ _ _ _ _ _ ends. ends };

    fn apply(&self, input: &mut I, left: i64, right: i64) -> Result<i64, E> {
        let value = match self {
            Binary::Add => left.checked_add(right),
            Binary::Subtract => left.checked_sub(right),
            Binary::Multiply => left.checked_mul(right),
            Binary::Divide => left.checked_div(right),
            Binary::Raise => u32::try_from(right)
                .ok()
                .and_then(|power| left.checked_pow(power)),
        };
        value.ok_or_else(|| E::from_input(input))
    }
}

/// An operator of one operand.
#[derive(Clone, Copy, Drop)]
enum Unary {
    Negate,
    Factorial,
}

impl<I: Stream, E: ParserError<I>> FoldUnary<I, i64, E> for Unary {
    ghost folds = { λ _ _ i _ _ j. IsEndOf I.reading j i };

    ghost leaves_ends = { λ _ _ _ _ _ _ ends. ends };

    fn apply(&self, input: &mut I, operand: i64) -> Result<i64, E> {
        let value = match self {
            Unary::Negate => operand.checked_neg(),
            Unary::Factorial => factorial(operand),
        };
        value.ok_or_else(|| E::from_input(input))
    }
}

/// Returns a factorial, if there is one of 64 bits.
fn factorial(n: i64) -> Option<i64> {
    match n {
        0..=20 => Some((1..=n).product()),
        _ => None,
    }
}

/// Parses a number, or a formula in brackets, with spaces after it.
#[cycle(formula)]
fn read_operand(alloc: Global, depth: usize, input: &mut &str) -> ModalResult<i64> {
    let number = DecUint.map(|number: u32| number as i64);
    let Some(below) = depth.checked_sub(1) else {
        return terminated(number, Space0).parse_next(input);
    };
    let formula = Func(|input: &mut &str| read_formula(alloc, below, input));
    let brackets = delimited(('(', Space0), formula, ')');
    terminated(alt((number, brackets)), Space0).parse_next(input)
}

/// Parses a formula whose brackets are nested at most `depth` deep.
#[cycle(formula)]
fn read_formula(alloc: Global, depth: usize, input: &mut &str) -> ModalResult<i64> {
    let operand = Func(|input: &mut &str| read_operand(alloc, depth, input));
    let negate = '-'.value(Prefix(3, Unary::Negate));
    let infix = alt((
        '+'.value(Infix::Left(1, Binary::Add)),
        '-'.value(Infix::Left(1, Binary::Subtract)),
        '*'.value(Infix::Left(2, Binary::Multiply)),
        '/'.value(Infix::Left(2, Binary::Divide)),
        '^'.value(Infix::Right(4, Binary::Raise)),
    ));
    expression(alloc, operand)
        .prefix(terminated(negate, Space0))
        .postfix(terminated('!'.value(Postfix(5, Unary::Factorial)), Space0))
        .infix(terminated(infix, Space0))
        .parse_next(input)
}

/// Parses a whole text as a formula.
fn value_of<'i>(alloc: Global, text: &'i str) -> Result<i64, ParseFault<&'i str, EmptyError>> {
    let mut formula = Func(|input: &mut &str| read_formula(alloc, 8, input));
    Parser::<_, _, ErrMode<_>>::parse(&mut formula, text)
}

#[test]
fn values(rt: HostRuntime) {
    for (text, value) in [
        ("1 + 2 * 3", 7),
        ("(1 + 2) * 3", 9),
        ("7 - 2 - 1", 4),
        ("7 / 2 / 2", 1),
        ("2 ^ 3 ^ 2", 512),
        ("-2 ^ 2", -4),
        ("(-2) ^ 2", 4),
        ("2 * -1 + 1", -1),
        ("3!", 6),
        ("3!!", 720),
        ("-3!", -6),
        ("2 * 3!", 12),
        ("2 ^ 3!", 64),
        ("--2", 2),
        ("20!", 2_432_902_008_176_640_000),
        ("(((((((1)))))))", 1),
    ] {
        assert_eq!(rt; value_of(rt.alloc(), text).ok(), Some(value));
    }
}

#[test]
fn invalid(rt: HostRuntime) {
    for text in [
        "",
        "1 +",
        "+1",
        "1 2",
        "(1",
        "1)",
        "()",
        "!",
        "1 ! 2",
        "1 / 0",
        "21!",
        "(-1)!",
        "20! * 20!",
        "2 ^ 64",
        "0 ^ -1",
        "(((((((((1)))))))))",
    ] {
        assert!(rt; value_of(rt.alloc(), text).is_err());
    }
}
