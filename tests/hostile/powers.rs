//! Operators whose powers are the ends of `i64`.
use std::alloc::Global;
use std::process::Abort;
use stream_errors::parser_error::ParserError;
use streams::stream::Stream;
use test_support::outcomes::{Outcome, outcome_of};
use test_support::rows::{Modal, same};
use winnow_core::parser::Parser;
use winnow_expression::combinator::{FoldBinary, FoldUnary, Infix, Postfix, Prefix, expression};
use winnow_token::token::impls::Any;

/// A tree as it is written, with a pair of brackets for each operator.
#[derive(Clone, Copy, Debug, PartialEq)]
struct Written {
    bytes: [u8; 24],
    len: usize,
}

impl Written {
    /// Concatenates the parts.
    fn of(parts: &[&[u8]]) -> Written {
        let mut all = Written {
            bytes: [0; 24],
            len: 0,
        };
        for part in parts {
            for byte in *part {
                if all.len < 24 {
                    all.bytes[all.len] = *byte;
                    all.len += 1;
                }
            }
        }
        all
    }

    fn text(&self) -> &[u8] {
        &self.bytes.as_slice()[..self.len]
    }
}

/// An operator that writes itself.
#[derive(Clone, Copy)]
struct Writes(u8);

impl<I: Stream, E: ParserError<I>> FoldUnary<I, Written, E> for Writes {
    ghost folds = { tt };

    ghost leaves_ends = { tt };

    fn apply(&self, input: &mut I, operand: Written) -> Result<Written, E> {
        if self.0 == b'!' {
            return Ok(Written::of(&[b"(", operand.text(), b"!)"]));
        }
        Ok(Written::of(&[b"(", &[self.0], operand.text(), b")"]))
    }
}

impl<I: Stream, E: ParserError<I>> FoldBinary<I, Written, E> for Writes {
    ghost folds = { tt };

    ghost leaves_ends = { tt };

    fn apply(&self, input: &mut I, left: Written, right: Written) -> Result<Written, E> {
        Ok(Written::of(&[b"(", left.text(), &[self.0], right.text(), b")"]))
    }
}

/// The side to which an infix is joined.
#[derive(Clone, Copy)]
enum Side {
    Left,
    Right,
    Neither,
}

/// Operators with their precedence: a prefix `-`, a postfix `!`, and infix `+`, `*` and `=`.
#[derive(Clone, Copy)]
struct Powers {
    minus: Option<i64>,
    mark: Option<i64>,
    plus: Option<(Side, i64)>,
    times: Option<(Side, i64)>,
    equals: Option<(Side, i64)>,
}

/// No operator.
const NONE: Powers = Powers {
    minus: None,
    mark: None,
    plus: None,
    times: None,
    equals: None,
};

fn operand_of(symbol: char) -> Option<Written> {
    let byte = u8::try_from(symbol).ok()?;
    if byte.is_ascii_digit() {
        Some(Written::of(&[&[byte]]))
    } else {
        None
    }
}

fn infix_of(powers: Powers, symbol: char) -> Option<Infix<Writes>> {
    let (power, byte) = match symbol {
        '+' => (powers.plus, b'+'),
        '*' => (powers.times, b'*'),
        '=' => (powers.equals, b'='),
        _ => (None, b' '),
    };
    match power {
        Some((Side::Left, power)) => Some(Infix::Left(power, Writes(byte))),
        Some((Side::Right, power)) => Some(Infix::Right(power, Writes(byte))),
        Some((Side::Neither, power)) => Some(Infix::Neither(power, Writes(byte))),
        None => None,
    }
}

fn read(
    alloc: Global,
    powers: Powers,
    level: i64,
    text: &'static str,
) -> Outcome<Written, &'static str> {
    let minus = move |symbol: char| match powers.minus {
        Some(power) => if symbol == '-' {
            Some(Prefix(power, Writes(b'-')))
        } else {
            None
        },
        None => None,
    };
    let mark = move |symbol: char| match powers.mark {
        Some(power) => if symbol == '!' {
            Some(Postfix(power, Writes(b'!')))
        } else {
            None
        },
        None => None,
    };
    let mut parser = expression(alloc, Any.verify_map(operand_of))
        .prefix(Any.verify_map(minus))
        .postfix(Any.verify_map(mark))
        .infix(Any.verify_map(move |symbol: char| infix_of(powers, symbol)))
        .current_precedence_level(level);
    outcome_of::<&str, Written, Modal, _>(&mut parser, text)
}

/// Checks the tree of an expression of such operators at a level, and the rest.
fn reads(
    rt: &impl Abort,
    alloc: Global,
    (powers, level): (Powers, i64),
    text: &'static str,
    (tree, rest): (&str, &'static str),
) {
    let got = read(alloc, powers, level, text);
    let want = (Ok(Written::of(&[tree.as_bytes()])), rest);
    assert_eq!(rt; got, want, "{text:?} at {level}, whose tree is {tree:?}");
}

const MAX: i64 = i64::MAX;

const MIN: i64 = i64::MIN;

/// The greatest power: what is joined to the left or to none asks its right operand for one more.
#[test]
fn the_greatest_power(rt: HostRuntime) {
    let alloc = rt.alloc();
    let left = Powers {
        plus: Some((Side::Left, MAX)),
        ..NONE
    };
    reads(&rt, alloc, (left, 0), "1+2+3", ("((1+2)+3)", ""));
    reads(&rt, alloc, (left, MAX), "1+2+3", ("((1+2)+3)", ""));
    let right = Powers {
        plus: Some((Side::Right, MAX)),
        ..NONE
    };
    reads(&rt, alloc, (right, MAX), "1+2+3", ("(1+(2+3))", ""));
    let neither = Powers {
        equals: Some((Side::Neither, MAX)),
        ..NONE
    };
    reads(&rt, alloc, (neither, 0), "1=2", ("(1=2)", ""));
    reads(&rt, alloc, (neither, MAX), "1=2=3", ("(1=2)", "=3"));
    let less = Powers {
        plus: Some((Side::Left, MAX - 1)),
        ..left
    };
    reads(&rt, alloc, (less, MAX), "1+2", ("1", "+2"));
    let both = Powers {
        times: Some((Side::Left, MAX)),
        plus: Some((Side::Left, MAX - 1)),
        ..NONE
    };
    reads(&rt, alloc, (both, 0), "1+2*3+4", ("((1+(2*3))+4)", ""));
    let before = Powers {
        minus: Some(MAX),
        ..left
    };
    reads(&rt, alloc, (before, 0), "-1+2", ("(-(1+2))", ""));
    let before = Powers {
        minus: Some(MAX),
        ..less
    };
    reads(&rt, alloc, (before, 0), "-1+2", ("((-1)+2)", ""));
    let behind = Powers {
        mark: Some(MAX),
        ..left
    };
    reads(&rt, alloc, (behind, 0), "1+2!", ("((1+2)!)", ""));
    let behind = Powers {
        mark: Some(MAX),
        ..less
    };
    reads(&rt, alloc, (behind, 0), "1+2!", ("(1+(2!))", ""));
}

/// The least power, at the least level: no power is below it.
#[test]
fn the_least_power(rt: HostRuntime) {
    let alloc = rt.alloc();
    let both = Powers {
        minus: Some(MIN),
        plus: Some((Side::Left, MIN)),
        ..NONE
    };
    reads(&rt, alloc, (both, MIN), "-1+2", ("(-(1+2))", ""));
    reads(&rt, alloc, (both, MIN + 1), "-1+2", ("(-(1+2))", ""));
    reads(&rt, alloc, (both, MIN + 1), "1+2", ("1", "+2"));
    let right = Powers {
        plus: Some((Side::Right, MIN)),
        ..NONE
    };
    reads(&rt, alloc, (right, MIN), "1+2+3", ("(1+(2+3))", ""));
    let left = Powers {
        plus: Some((Side::Left, MIN)),
        ..NONE
    };
    reads(&rt, alloc, (left, MIN), "1+2+3", ("((1+2)+3)", ""));
    let neither = Powers {
        equals: Some((Side::Neither, MIN)),
        ..NONE
    };
    reads(&rt, alloc, (neither, MIN), "1=2=3", ("(1=2)", "=3"));
    reads(&rt, alloc, (neither, MIN + 1), "1=2", ("1", "=2"));
    let behind = Powers {
        mark: Some(MIN),
        ..NONE
    };
    reads(&rt, alloc, (behind, MIN), "1!!", ("((1!)!)", ""));
    reads(&rt, alloc, (behind, MIN + 1), "1!", ("1", "!"));
    reads(&rt, alloc, (behind, 0), "1!", ("1", "!"));
    let all = Powers {
        minus: Some(MAX),
        mark: Some(MIN),
        ..left
    };
    reads(&rt, alloc, (all, MIN), "-1!+2", ("(((-1)!)+2)", ""));
}

/// The sum that a prefix of the least power takes as its operand.
#[test]
fn a_sum_of_the_least_power(rt: HostRuntime) {
    let number = || Any.verify_map(|symbol: char| symbol.to_digit(10));
    let digit = number().map(|digit: u32| i64::from(digit));
    let mut parser = expression(rt.alloc(), digit)
        .prefix('-'.map(|_: char| Prefix(MIN, Sums)))
        .infix('+'.map(|_: char| Infix::Left(MIN, Sums)))
        .current_precedence_level(MIN);
    let got = outcome_of::<&str, i64, Modal, _>(&mut parser, "-1+2");
    same(&rt, "expression", "-1+2", got, (Ok(-3), ""));
}

/// The negative of a number, and the sum of two.
#[derive(Clone, Copy)]
struct Sums;

impl<I: Stream, E: ParserError<I>> FoldUnary<I, i64, E> for Sums {
    ghost folds = { tt };

    ghost leaves_ends = { tt };

    fn apply(&self, input: &mut I, operand: i64) -> Result<i64, E> {
        Ok(0 - operand)
    }
}

impl<I: Stream, E: ParserError<I>> FoldBinary<I, i64, E> for Sums {
    ghost folds = { tt };

    ghost leaves_ends = { tt };

    fn apply(&self, input: &mut I, left: i64, right: i64) -> Result<i64, E> {
        Ok(left + right)
    }
}
