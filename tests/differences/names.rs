//! Names and parameters.
use std::ops::RangeInclusive;
use winnow::binary::bits::Bits;
use winnow::combinator::{Repeat, repeat};
use winnow::error::{EmptyError, ErrMode};
use winnow::prelude::*;
use winnow::token::impls::TakeWhile;
use winnow::token::{one_of, take_while};

type Fails = ErrMode<EmptyError>;

#[test]
fn parsers_are_structs(rt: HostRuntime) {
    let mut word: TakeWhile<RangeInclusive<char>, &str, Fails> =
        take_while(1.., 'a'..='z');
    assert_eq!(rt; word.parse_peek("ab1").ok(), Some(("1", "ab")));
}

#[test]
fn allocators_come_first(rt: HostRuntime) {
    let mut input = "12a";
    let digits: Result<Vec<char>, Fails> =
        repeat(rt.alloc(), 1.., one_of('0'..='9')).parse_next(&mut input);
    assert_eq!(rt; digits.ok().map(|it| it.len()), Some(2));
}

#[test]
fn inputs_are_copied(rt: HostRuntime) {
    let mut input = "ab";
    let kept = input;
    assert_eq!(rt; input.next_token(), Some('a'));
    assert_eq!(rt; (kept, input), ("ab", "b"));
}

#[test]
fn type_arguments_are_others(rt: HostRuntime) {
    let mut all: Repeat<_, &str, _, (), Fails, _> = repeat(rt.alloc(), 0.., 'a');
    assert_eq!(rt; all.parse_peek("aab").ok(), Some(("b", ())));
    assert_eq!(rt; Bits(b"a".as_slice(), 4).1, 4);
}
