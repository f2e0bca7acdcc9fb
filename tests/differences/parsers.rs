//! Parsers and adapters.
use std::alloc::Global;
use winnow::ascii::alpha1;
use winnow::ascii::impls::{Alpha1, DecUint, Digit1};
use winnow::combinator::{fail, opt, separated_pair};
use winnow::error::{EmptyError, ErrMode, Needed, ParseFault};
use winnow::{Func, FuncWith, parsers};
use winnow::prelude::*;
use winnow::stream::Partial;
use winnow::token::{one_of, take};

type Fails = ErrMode<EmptyError>;

fn number(input: &mut &str) -> Result<u32, Fails> {
    DecUint.parse_next(input)
}

fn asking(_input: &mut &str) -> Result<char, Fails> {
    Err(ErrMode::Incomplete(Needed::new(2)))
}

fn number_with(_alloc: Global, input: &mut &str) -> Result<u32, Fails> {
    number(input)
}

#[test]
fn functions_are_wrapped(rt: HostRuntime) {
    assert_eq!(rt; opt(Func(number)).parse_peek("12").ok(), Some(("", Some(12))));
    let mut other = opt(FuncWith(rt.alloc(), number_with));
    assert_eq!(rt; other.parse_peek("x").ok(), Some(("x", None)));
}

#[test]
fn structs_are_passed(rt: HostRuntime) {
    let mut input = "ab=1";
    let first: Result<(&str, &str), Fails> =
        separated_pair(Alpha1, '=', Digit1).parse_next(&mut input);
    assert_eq!(rt; first.ok(), Some(("ab", "1")));
    let mut input = "ab=1";
    let second: Result<(&str, &str), Fails> =
        separated_pair(parsers::alpha1, '=', parsers::digit1).parse_next(&mut input);
    assert_eq!(rt; second.ok(), Some(("ab", "1")));
    let mut input = "ab=1";
    let third: Result<&str, Fails> = alpha1(&mut input);
    assert_eq!(rt; third.ok(), Some("ab"));
}

#[test]
fn parsers_are_lent(rt: HostRuntime) {
    let mut digits = Digit1;
    let mut input = "12";
    let read: Result<Option<&str>, Fails> = opt(digits.by_ref()).parse_next(&mut input);
    assert_eq!(rt; read.ok(), Some(Some("12")));
}

#[test]
fn parse_returns_incomplete(rt: HostRuntime) {
    let mut asks = Func(asking);
    match asks.parse("ab") {
        Err(ParseFault::Incomplete(needed)) => assert_eq!(rt; needed, Needed::new(2)),
        _ => assert!(rt; false, "another result"),
    }
    let mut items = asks.parse_iter("ab");
    assert!(rt; matches!(items.next(), Some(Err(ParseFault::Incomplete(_)))));
    assert!(rt; items.next().is_none());
}

#[test]
fn partial_input_is_completed(rt: HostRuntime) {
    let mut input = Partial::new("12");
    let first: Result<&str, Fails> = Digit1.parse_next(&mut input);
    assert!(rt; matches!(first, Err(ErrMode::Incomplete(_))));
    let _was_partial = input.complete();
    let second: Result<&str, Fails> = Digit1.parse_next(&mut input);
    assert_eq!(rt; second.ok(), Some("12"));
}

#[test]
fn verify_takes_the_output(rt: HostRuntime) {
    let mut input = b"abc".as_slice();
    let read: Result<&[u8], Fails> = take(2_usize)
        .verify(|slice: &&[u8]| slice.len() > 1)
        .parse_next(&mut input);
    assert_eq!(rt; read.ok(), Some(b"ab".as_slice()));
}

fn numbered(count: &mut u32, input: &mut &str) -> Result<char, Fails> {
    let letter = one_of('a'..='z').parse_next(input)?;
    *count = count.saturating_add(1);
    Ok(letter)
}

#[test]
fn states_are_arguments(rt: HostRuntime) {
    let mut count = 0;
    assert_eq!(rt; numbered(&mut count, &mut "ab").ok(), Some('a'));
    assert!(rt; numbered(&mut count, &mut "1").is_err());
    assert_eq!(rt; count, 1);
}

#[test]
fn todo_is_fail(rt: HostRuntime) {
    let read: Result<(), Fails> = fail(&mut "ab");
    assert!(rt; matches!(read, Err(ErrMode::Backtrack(_))));
}
