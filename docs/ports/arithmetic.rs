//! The value of a formula, as `2 * (3 + 4)`.

use winnow::ascii::{digit1, space0};
use winnow::combinator::{alt, delimited, repeat};
use winnow::prelude::*;
use winnow::token::one_of;

/// Parses a sum: products with `+` and `-` between them.
fn sum(input: &mut &str) -> ModalResult<i64> {
    let first = product(input)?;
    let later = (one_of(['+', '-']), product);
    repeat(0.., later)
        .fold(
            move || first,
            |value: i64, (sign, next)| match sign {
                '+' => value + next,
                _ => value - next,
            },
        )
        .parse_next(input)
}

/// Parses a product: operands with `*` and `/` between them.
fn product(input: &mut &str) -> ModalResult<i64> {
    let first = operand(input)?;
    let later = (one_of(['*', '/']), operand);
    repeat(0.., later)
        .fold(
            move || first,
            |value: i64, (sign, next)| match sign {
                '*' => value * next,
                _ => value / next,
            },
        )
        .parse_next(input)
}

/// Parses a number or a sum in brackets, and the spaces around it.
fn operand(input: &mut &str) -> ModalResult<i64> {
    let number = digit1.parse_to();
    let brackets = delimited('(', sum, ')');
    delimited(space0, alt((number, brackets)), space0).parse_next(input)
}

/// Returns the value of a formula, or the offset of the error.
fn evaluate(text: &str) -> Result<i64, usize> {
    sum.parse(text).map_err(|error| error.offset())
}
