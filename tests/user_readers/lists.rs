//! Lists: repetitions and separated elements, into a list.

use crate::forms::{count_lines, read_words};
use std::alloc::Allocator;
use test_support::rows::Modal;
use winnow::ascii::impls::{Alpha1, DecUint};
use winnow::combinator::{delimited, repeat, separated, separated_pair, terminated};
use winnow::error::{EmptyError, ErrMode};
use winnow::prelude::*;
use winnow::stream::{AsBStr, AsChar, Compare, SlicesAsBytes};

/// Reads numbers with commas between them, over any stream of text.
pub fn read_numbers<I, E, A>(alloc: A, input: &mut I) -> Result<Vec<u32, A>, E>
where
    I: StreamIsPartial + SlicesAsBytes + Compare<char>,
    I::Token: AsChar,
    I::Slice: AsBStr,
    E: ParserError<I>,
    A: Allocator + Copy,
{
    separated(alloc, 1.., DecUint.map(|number: u32| number), ',').parse_next(input)
}

/// Reads settings, a line each, over any stream of text.
pub fn read_settings<I, E, A>(alloc: A, input: &mut I) -> Result<Vec<(I::Slice, u32), A>, E>
where
    I: StreamIsPartial + SlicesAsBytes + Compare<char>,
    I::Token: AsChar,
    I::Slice: AsBStr,
    E: ParserError<I>,
    A: Allocator + Copy,
{
    let setting = terminated(separated_pair(Alpha1, '=', DecUint), '\n');
    repeat(alloc, 0.., setting).parse_next(input)
}

/// Reads a list of numbers in brackets, over any stream of bytes or text.
pub fn read_array<I, E, A>(alloc: A, input: &mut I) -> Result<Vec<u64, A>, E>
where
    I: StreamIsPartial + SlicesAsBytes + Compare<u8>,
    I::Token: AsChar,
    I::Slice: AsBStr,
    E: ParserError<I>,
    A: Allocator + Copy,
{
    let numbers = separated(alloc, 0.., DecUint.map(|number: u64| number), b',');
    delimited(b'[', numbers, b']').parse_next(input)
}

/// Reads a name, a colon and the words of that name, with commas between them.
pub fn read_named_words<'i, A: Allocator + Copy>(
    alloc: A,
    input: &mut &'i str,
) -> Result<(&'i str, Vec<&'i str, A>), ErrMode<EmptyError>> {
    let (name, _, words) = (
        Alpha1,
        ':',
        separated(alloc, 0.., Alpha1, ','),
    ).parse_next(input)?;
    Ok((name, words))
}

#[test]
fn lists(rt: HostRuntime) {
    let numbers = read_numbers::<&str, Modal, _>(rt.alloc(), &mut "1,2,30;").ok();
    assert!(rt; numbers.is_some_and(|it| it.as_slice() == [1, 2, 30].as_slice()));
    let words = read_words(rt.alloc(), &mut "to be or").ok();
    assert!(rt; words.is_some_and(|it| it.as_slice() == ["to", "be", "or"].as_slice()));
    let settings = read_settings::<&str, Modal, _>(rt.alloc(), &mut "a=1\nb=2\n").ok();
    assert!(rt; settings.is_some_and(|it| it.as_slice() == [("a", 1), ("b", 2)].as_slice()));
    let array = read_array::<&[u8], Modal, _>(rt.alloc(), &mut b"[4,5]".as_slice()).ok();
    assert!(rt; array.is_some_and(|it| it.as_slice() == [4, 5].as_slice()));
    let named = read_named_words(rt.alloc(), &mut "a:b,c,").ok();
    assert!(rt; named.is_some_and(|it| it.0 == "a" && it.1.as_slice() == ["b", "c"].as_slice()));
    assert!(rt; read_named_words(rt.alloc(), &mut "a b").is_err());
    assert_eq!(rt; count_lines(rt.alloc(), &mut "a\nb\n").ok(), Some(2));
}
