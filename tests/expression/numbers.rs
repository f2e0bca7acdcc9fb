//! Expressions of numbers.
use std::alloc::Allocator;
use stream_errors::parser_error::ParserError;
use streams::stream::Stream;
use test_support::outcomes::{Outcome, outcome_of};
use test_support::rows::{Modal, same};
use winnow_ascii::ascii::impls::Digit1;
use winnow_core::parser::Parser;
use winnow_expression::combinator::{FoldBinary, FoldUnary, Infix, Prefix, expression};
use winnow_token::token::impls::Any;

/// An operator on numbers.
#[derive(Clone, Copy)]
struct Symbol(char);

impl<I: Stream, E: ParserError<I>> FoldUnary<I, i64, E> for Symbol {
    ghost folds = { tt };

    ghost leaves_ends = { tt };

    fn apply(&self, input: &mut I, operand: i64) -> Result<i64, E> {
        let value = if self.0 == '-' {
            operand.checked_neg()
        } else {
            Some(operand)
        };
        match value {
            Some(value) => Ok(value),
            None => Err(E::from_input(input)),
        }
    }
}

impl<I: Stream, E: ParserError<I>> FoldBinary<I, i64, E> for Symbol {
    ghost folds = { tt };

    ghost leaves_ends = { tt };

    fn apply(&self, input: &mut I, left: i64, right: i64) -> Result<i64, E> {
        let value = match self.0 {
            '+' => left.checked_add(right),
            '-' => left.checked_sub(right),
            '*' => left.checked_mul(right),
            '/' => left.checked_div(right),
            _ => left.checked_rem(right),
        };
        match value {
            Some(value) => Ok(value),
            None => Err(E::from_input(input)),
        }
    }
}

fn prefix_of(symbol: char) -> Option<Prefix<Symbol>> {
    match symbol {
        '+' | '-' => Some(Prefix(12, Symbol(symbol))),
        _ => None,
    }
}

fn infix_of(symbol: char) -> Option<Infix<Symbol>> {
    match symbol {
        '+' | '-' => Some(Infix::Left(5, Symbol(symbol))),
        '*' | '/' | '%' => Some(Infix::Left(7, Symbol(symbol))),
        _ => None,
    }
}

/// The result for a text.
pub(crate) fn value<A: Allocator + Copy>(
    alloc: A,
    text: &'static str,
) -> Outcome<i64, &'static str> {
    let mut parser = expression(alloc, Digit1.parse_to::<i64>())
        .prefix(Any.verify_map(prefix_of))
        .infix(Any.verify_map(infix_of));
    outcome_of::<&str, i64, Modal, _>(&mut parser, text)
}

#[test]
fn expression_of_numbers(rt: HostRuntime) {
    for (text, want, rest) in [
        ("-3+-3*4", Ok(-15), ""),
        ("+2+3*4", Ok(14), ""),
        ("2*3+4", Ok(10), ""),
        ("1+2", Ok(3), ""),
        ("10-2-3 ", Ok(5), " "),
    ] {
        same(
            &rt,
            "expression",
            text,
            value(rt.alloc(), text),
            (want, rest),
        );
    }
}

/// Powers of its own for each operator, and a level.
#[test]
fn expression_of_numbers_by_other_powers(rt: HostRuntime) {
    let weak_minus = |symbol: char| if symbol == '-' {
        Some(Prefix(1, Symbol(symbol)))
    } else {
        None
    };
    let times_and_plus = |symbol: char| match symbol {
        '*' => Some(Infix::Left(7, Symbol(symbol))),
        '+' => Some(Infix::Left(5, Symbol(symbol))),
        _ => None,
    };
    let mut parser = expression(rt.alloc(), Digit1.parse_to::<i64>())
        .prefix(Any.verify_map(weak_minus))
        .infix(Any.verify_map(times_and_plus));
    let got = outcome_of::<&str, i64, Modal, _>(&mut parser, "2*-3+4");
    same(&rt, "a weak prefix", "2*-3+4", got, (Ok(-14), ""));
    let greatest = Infix::Left(i64::MAX, Symbol('+'));
    let mut parser = expression(rt.alloc(), Digit1.parse_to::<i64>()).infix('+'.value(greatest));
    let got = outcome_of::<&str, i64, Modal, _>(&mut parser, "1+2");
    same(&rt, "the greatest power", "1+2", got, (Ok(3), ""));
    let least = Infix::Right(i64::MIN, Symbol('+'));
    let mut parser = expression(rt.alloc(), Digit1.parse_to::<i64>())
        .infix('+'.value(least))
        .current_precedence_level(i64::MIN);
    let got = outcome_of::<&str, i64, Modal, _>(&mut parser, "1+2+3");
    same(&rt, "the least power", "1+2+3", got, (Ok(6), ""));
}
