//! Expressions of digits with four operators between them.
#![tactic(auto, using(winnow::specs::Rules::ends_follow))]

ghost use Rattle.winnow.specs.Terms.{AnyOutcome, meets_no_terms, no_terms};
ghost use Rattle.std.specs.Prelude.{⊤};
ghost use Rattle.winnow.specs.Bytes.{bytes_input, bytes_reading};
ghost use Rattle.winnow.specs.Input.{IsEndOf};

use crate::outcome::Outcome;
use std::alloc::Global;
use winnow::combinator::{FoldBinary, Infix, expression};
use winnow::error::EmptyError;
use winnow::prelude::*;
use winnow::token::impls::Any;

/// The operators.
#[derive(Clone, Copy, Drop)]
enum Operator {
    Plus,
    Minus,
    Times,
    Over,
}

/// Applies an operator to two numbers, modulo 2 to the 64. Division by 0 gives 0.
fn joined(operator: Operator, left: u64, right: u64) -> u64 {
    match operator {
        Operator::Plus => left.wrapping_add(right),
        Operator::Minus => left.wrapping_sub(right),
        Operator::Times => left.wrapping_mul(right),
        Operator::Over => match left.checked_div(right) {
            Some(quotient) => quotient,
            None => 0,
        },
    }
}

impl<I: Stream, E: ParserError<I>> FoldBinary<I, u64, E> for Operator {
    ghost folds = { λ _ _ i _ _ _ j. IsEndOf I.reading j i };

    ghost leaves_ends = { λ _ _ _ _ _ _ _ ends. ends };

    #[inline(always)]
    fn apply(&self, input: &mut I, left: u64, right: u64) -> Result<u64, E> {
        Ok(joined(*self, left, right))
    }
}

/// Returns the operator of a byte.
fn operator_of(byte: u8) -> Option<Infix<Operator>> {
    match byte {
        b'+' => Some(Infix::Left(5, Operator::Plus)),
        b'-' => Some(Infix::Left(5, Operator::Minus)),
        b'*' => Some(Infix::Left(7, Operator::Times)),
        b'/' => Some(Infix::Left(7, Operator::Over)),
        _ => None,
    }
}

/// The parser of a digit.
#[derive(Drop)]
struct Digit;

impl<'i> Parser<&'i [u8], u64, EmptyError> for Digit {
    ghost State = { ⊤ };

    ghost state = { λ _. tt };

    ghost does = { AnyOutcome };

    ghost terms = { no_terms };

    ghost lawful = { meets_no_terms };

    #[inline(always)]
    fn parse_next(&mut self, input: &mut &'i [u8]) -> Result<u64, EmptyError> {
        let start = *input;
        match Any.parse_next(input) {
            Ok(byte) => {
                let digit = byte.wrapping_sub(b'0');
                if digit < 10 {
                    Ok(digit as u64)
                } else {
                    *input = start;
                    Err(EmptyError::from_input(&start))
                }
            }
            Err(error) => Err(error),
        }
    }
}

/// The parser of an operator.
#[derive(Drop)]
struct Between;

impl<'i> Parser<&'i [u8], Infix<Operator>, EmptyError> for Between {
    ghost State = { ⊤ };

    ghost state = { λ _. tt };

    ghost does = { AnyOutcome };

    ghost terms = { no_terms };

    ghost lawful = { meets_no_terms };

    #[inline(always)]
    fn parse_next(&mut self, input: &mut &'i [u8]) -> Result<Infix<Operator>, EmptyError> {
        let start = *input;
        match Any.parse_next(input) {
            Ok(byte) => match operator_of(byte) {
                Some(operator) => Ok(operator),
                None => {
                    *input = start;
                    Err(EmptyError::from_input(&start))
                }
            },
            Err(error) => Err(error),
        }
    }
}

/// Parses one expression, and returns its value.
fn value<'i>(alloc: Global, input: &mut &'i [u8]) -> Result<u64, EmptyError>
    ensures { IsEndOf bytes_reading (bytes_input input.new.now) (bytes_input input.old.now) }
{
    expression(alloc, Digit).infix(Between).parse_next(input)
}

/// Evaluates an expression of numbers with `+`, `-`, `*` and `/`. `out` stays zero if an allocation
/// fails.
#[unsafe(no_mangle)]
pub extern "C" fn timed_expression(alloc: Global, input: &[u8], out: &mut Outcome) {
    let mut rest = input;
    *out = Outcome {
        count: 0,
        sum: 0,
        left: 0,
    };
    if let Ok(value) = value(alloc, &mut rest) {
        out.count = 1;
        out.sum = value;
        out.left = rest.len() as u64;
    }
}
