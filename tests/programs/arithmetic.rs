//! The value of a formula, as `2 * (3 + 4)`.

use std::alloc::Global;
use winnow::FuncWith;
use winnow::ascii::impls::{Digit1, Space0};
use winnow::combinator::{alt, delimited, fail, repeat};
use winnow::error::ParseFault;
use winnow::prelude::*;
use winnow::token::one_of;

/// Parses a sum: products with `+` and `-` between them.
#[cycle(formula)]
fn sum((alloc, depth): (Global, usize), input: &mut &str) -> ModalResult<i64> {
    let first = product((alloc, depth), input)?;
    let later = (one_of(['+', '-']), FuncWith((alloc, depth), product));
    repeat(alloc, 0.., later)
        .verify_fold(
            move || first,
            |value: i64, (sign, next)| match sign {
                '+' => value.checked_add(next),
                _ => value.checked_sub(next),
            },
        )
        .parse_next(input)
}

/// Parses a product: operands with `*` and `/` between them.
#[cycle(formula)]
fn product((alloc, depth): (Global, usize), input: &mut &str) -> ModalResult<i64> {
    let first = operand((alloc, depth), input)?;
    let later = (one_of(['*', '/']), FuncWith((alloc, depth), operand));
    repeat(alloc, 0.., later)
        .verify_fold(
            move || first,
            |value: i64, (sign, next)| match sign {
                '*' => value.checked_mul(next),
                _ => value.checked_div(next),
            },
        )
        .parse_next(input)
}

/// Parses a number or a sum in brackets, and the spaces around it.
#[cycle(formula)]
fn operand((alloc, depth): (Global, usize), input: &mut &str) -> ModalResult<i64> {
    let Some(below) = depth.checked_sub(1) else {
        return fail(input);
    };
    let number = Digit1.parse_to();
    let brackets = delimited('(', FuncWith((alloc, below), sum), ')');
    delimited(Space0, alt((number, brackets)), Space0).parse_next(input)
}

/// Returns the value of a formula, or the offset of the error.
fn evaluate(alloc: Global, text: &str) -> Result<i64, usize> {
    match FuncWith((alloc, 8), sum).parse(text) {
        Ok(value) => Ok(value),
        Err(ParseFault::Invalid(error)) => Err(error.offset()),
        Err(ParseFault::Incomplete(_)) => Err(text.len()),
    }
}

// As Python computes them, with `//` for positive numbers.
#[test]
fn values(rt: HostRuntime) {
    for (text, value) in [
        ("1+2*3", 7),
        (" ( 1 + 2 ) * 3 ", 9),
        ("7 - 2 - 1", 4),
        ("7/2/2", 1),
        ("2*3*4/5", 4),
        ("((((2))))", 2),
        ("9223372036854775807", i64::MAX),
    ] {
        assert_eq!(rt; evaluate(rt.alloc(), text), Ok(value));
    }
}

// The offsets are winnow's.
#[test]
fn errors(rt: HostRuntime) {
    for (text, offset) in [
        ("", 0),
        ("1+", 1),
        ("1 + x", 2),
        ("2 3", 2),
        ("(1", 2),
        ("9223372036854775808", 0),
    ] {
        assert_eq!(rt; evaluate(rt.alloc(), text), Err(offset));
    }
    for text in ["9223372036854775807+1", "1/0", "(((((((((1)))))))))"] {
        assert!(rt; evaluate(rt.alloc(), text).is_err());
    }
}
