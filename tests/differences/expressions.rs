//! Operator expressions.
use std::alloc::Global;
use winnow::ascii::impls::DecUint;
use winnow::combinator::impls::Empty;
use winnow::combinator::{FoldBinary, Infix, alt, expression};
use winnow::error::{EmptyError, ErrMode};
use winnow::prelude::*;

type Fails = ErrMode<EmptyError>;

/// An operator: its fold is a value, and subtracts.
#[derive(Clone, Copy)]
struct Pair;

impl<I: Stream, E: ParserError<I>> FoldBinary<I, i64, E> for Pair {
    ghost folds = { tt };

    ghost leaves_ends = { tt };

    fn apply(&self, _input: &mut I, left: i64, right: i64) -> Result<i64, E> {
        Ok(left.saturating_sub(right))
    }
}

/// Subtracts, with an operator of the given kind.
fn value(alloc: Global, infix: Infix<Pair>, text: &str) -> Option<(&str, i64)> {
    let operand = DecUint.map(|n: u32| n as i64);
    let mut whole = expression(alloc, operand).infix('-'.value(infix));
    let read: Result<(&str, i64), Fails> = whole.parse_peek(text);
    read.ok()
}

#[test]
fn expressions_allocate(rt: HostRuntime) {
    let alloc = rt.alloc();
    assert_eq!(rt; value(alloc, Infix::Left(1, Pair), "9-3-2"), Some(("", 4)));
    assert_eq!(rt; value(alloc, Infix::Right(1, Pair), "9-3-2"), Some(("", 8)));
}

/// Subtracts, with `-` of power 1 and another operator `=`.
fn mixed(alloc: Global, infix: Infix<Pair>, text: &str) -> Option<(&str, i64)> {
    let operand = DecUint.map(|n: u32| n as i64);
    let minus = '-'.value(Infix::Left(1, Pair));
    let mut whole = expression(alloc, operand).infix(alt((minus, '='.value(infix))));
    let read: Result<(&str, i64), Fails> = whole.parse_peek(text);
    read.ok()
}

#[test]
fn right_keeps_its_power(rt: HostRuntime) {
    // Not `9=(3-2)`, which is 8.
    let read = mixed(rt.alloc(), Infix::Right(2, Pair), "9=3-2");
    assert_eq!(rt; read, Some(("", 4)));
}

#[test]
fn neither_ends_every_call(rt: HostRuntime) {
    // Not `(8-(9=3))=2`, which is 0.
    let read = mixed(rt.alloc(), Infix::Neither(2, Pair), "8-9=3=2");
    assert_eq!(rt; read, Some(("=2", 2)));
}

#[test]
fn powers_are_kept(rt: HostRuntime) {
    let alloc = rt.alloc();
    assert_eq!(rt; value(alloc, Infix::Left(i64::MAX, Pair), "9-3-2"), Some(("", 4)));
    match Infix::Right(i64::MAX, Pair).clone() {
        Ok(infix) => assert_eq!(rt; value(alloc, infix, "9-3-2"), Some(("", 8))),
        Err(_) => assert!(rt; false, "no memory"),
    }
}

#[test]
fn expressions_need_progress(rt: HostRuntime) {
    let operand = Empty.value(1_i64);
    let mut whole = expression(rt.alloc(), operand).infix(Empty.value(Infix::Left(1, Pair)));
    let read: Result<(&str, i64), Fails> = whole.parse_peek("ab");
    assert!(rt; matches!(read, Err(ErrMode::Cut(_))));
}
