//! Sequence, choice and repetition.
use std::collections::BTreeMap;
use winnow::ascii::impls::DecUint;
use winnow::combinator::impls::RepeatFold;
use winnow::combinator::{ParserIterator, alt, iterator, peek, repeat};
use winnow::error::{EmptyError, ErrMode};
use winnow::prelude::*;
use winnow::token::impls::Any;
use winnow::token::{one_of, take};

type Fails = ErrMode<EmptyError>;

#[test]
fn maps_are_ordered(rt: HostRuntime) {
    let pair = (one_of('a'..='z'), DecUint);
    let mut pairs = repeat(rt.alloc(), 1.., pair);
    let read: Result<BTreeMap<char, u32>, Fails> = pairs.parse_next(&mut "b2a1b3");
    assert_eq!(rt; read.ok().map(|it| it.len()), Some(2));
    let keys = one_of('a'..='z').map(|key: char| (key, ()));
    let read: Result<BTreeMap<char, ()>, Fails> =
        repeat(rt.alloc(), 1.., keys).parse_next(&mut "baab");
    assert_eq!(rt; read.ok().map(|it| it.len()), Some(2));
}

#[test]
fn folds_are_structs(rt: HostRuntime) {
    let mut count: RepeatFold<_, _, _, &str, char, usize, Fails> =
        repeat(rt.alloc(), 0.., 'a').fold(|| 0, |count: usize, _| count + 1);
    assert_eq!(rt; count.parse_peek("aab").ok(), Some(("b", 2)));
}

#[test]
fn iterators_need_progress(rt: HostRuntime) {
    let mut input = "ab";
    let mut items: ParserIterator<_, &str, &str, Fails> = iterator(&mut input, "");
    assert!(rt; items.next().is_none());
    assert!(rt; matches!(items.finish(), Err(ErrMode::Cut(_))));
}

fn sign(input: &mut &str) -> Result<i8, Fails> {
    match peek(Any).parse_next(input)? {
        '-' => '-'.value(-1).parse_next(input),
        _ => '+'.value(1).parse_next(input),
    }
}

#[test]
fn macros_are_written_out(rt: HostRuntime) {
    assert_eq!(rt; sign(&mut "-1"), Ok(-1));
    assert!(rt; sign(&mut "1").is_err());
}
