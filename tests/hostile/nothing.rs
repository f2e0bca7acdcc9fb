//! Children that consume nothing.
use crate::common::{AtBytes, Bytes, Plain};
use std::alloc::Global;
use std::process::Abort;
use stream_errors::parser_error::ParserError;
use stream_sets::range::Range;
use test_support::outcomes::Kind::{self, Backtrack, Cut};
use test_support::outcomes::answer_of;
use test_support::rows::{outcome_at, same};
use winnow_ascii::ascii::impls::Digit1;
use winnow_binary::binary;
use winnow_binary::binary::impls::LengthRepeat;
use winnow_comb::combinator::impls::Empty;
use winnow_comb::combinator::{not, opt, peek};
use winnow_core::combinator::impls::ParseTo;
use winnow_core::parser::Parser;
use winnow_integers::binary::impls::U8;
use winnow_repeat::combinator::impls::{Repeat, RepeatTill};
use winnow_repeat::combinator::{ParserIterator, iterator, repeat, repeat_till};
use winnow_separated::combinator::impls::Separated;
use winnow_separated::combinator::{separated, separated_foldl1, separated_foldr1};
use winnow_token::token::impls::{Any, RestLen, Take};
use winnow_token::token::take;

/// A number.
type Number<E> = ParseTo<Digit1, Bytes, Bytes, u32, E>;

fn number<E: ParserError<Bytes>>() -> Number<E> {
    Digit1.parse_to()
}

/// Checks a result and the number of remaining bytes.
fn ended<O: PartialEq + std::fmt::Debug + Drop>(
    rt: &impl Abort,
    (name, text): (&str, &str),
    got: (Result<O, Kind>, Bytes),
    want: (Result<O, Kind>, usize),
) {
    same(rt, name, text, (got.0, got.1.len()), want);
}

/// Elements with an empty separator. The assert error of kind `asserted` is returned after the
/// element, also if it is a backtrack.
fn separators<E: ParserError<Bytes>>(rt: &impl Abort, alloc: Global, asserted: Kind) {
    for (name, range) in [
        ("separated(0.., digit1, Empty)", Range::from(0..)),
        ("separated(1.., digit1, Empty)", Range::from(1..)),
        ("separated(2, digit1, Empty)", Range::from(2)),
        ("separated(0..=9, digit1, Empty)", Range::from(0..=9)),
    ] {
        for (text, left) in [("1", 0), ("1;", 1), ("12;3", 2)] {
            let mut parser: Separated<Digit1, Empty, Bytes, Bytes, (), usize, E, Global> =
                separated(alloc, range, Digit1, Empty);
            let got = outcome_at::<Bytes, usize, E, _>(&mut parser, text);
            ended(rt, (name, text), got, (Err(asserted), left));
        }
    }
    for (text, left) in [("1", 0), ("1;", 1)] {
        let sum = |left: u32, _: (), right: u32| left + right;
        let mut parser = separated_foldl1(number::<E>(), Empty, sum);
        let got = outcome_at::<Bytes, u32, E, _>(&mut parser, text);
        ended(rt, ("separated_foldl1", text), got, (Err(asserted), left));
    }
    // A pair of a separator and an element consumes as a pair, and may backtrack.
    for (text, want, left) in [("1", 1, 0), ("1;", 1, 1)] {
        let sum = |left: u32, _: (), right: u32| left + right;
        let mut parser = separated_foldr1(alloc, number::<E>(), Empty, sum);
        let got = outcome_at::<Bytes, u32, E, _>(&mut parser, text);
        ended(rt, ("separated_foldr1", text), got, (Ok(want), left));
    }
    let mut parser = separated_foldr1(alloc, Any, Empty, |left: u8, _: (), _: u8| left);
    let got = outcome_at::<Bytes, u8, E, _>(&mut parser, "abc");
    ended(rt, ("separated_foldr1", "abc"), got, (Ok(b'a'), 0));
    let mut parser = separated_foldr1(alloc, Empty, Empty, |_: (), _: (), _: ()| ());
    let got = outcome_at::<Bytes, (), E, _>(&mut parser, "a");
    ended(rt, ("separated_foldr1", "a"), got, (Err(asserted), 1));
}

#[test]
fn separators_that_consume_nothing(rt: HostRuntime) {
    separators::<AtBytes>(&rt, rt.alloc(), Cut);
    separators::<Plain>(&rt, rt.alloc(), Backtrack);
}

/// Items that consume nothing, until a semicolon.
fn items_till<E: ParserError<Bytes>>(rt: &impl Abort, alloc: Global, asserted: Kind) {
    for (name, range, text, want, left) in [
        ("repeat_till(0..)", Range::from(0..), "a", Err(asserted), 1),
        ("repeat_till(0..)", Range::from(0..), ";", Ok((0, b';')), 0),
        ("repeat_till(1..)", Range::from(1..), "a", Err(asserted), 1),
        ("repeat_till(2..)", Range::from(2..), ";", Ok((2, b';')), 0),
        ("repeat_till(2..)", Range::from(2..), "", Err(asserted), 0),
        (
            "repeat_till(2..=9)",
            Range::from(2..=9),
            "a",
            Err(asserted),
            1,
        ),
        ("repeat_till(2)", Range::from(2), "a;", Err(Backtrack), 2),
    ] {
        let mut parser: RepeatTill<Empty, u8, Bytes, (), u8, usize, E, Global> = repeat_till(
            alloc, range, Empty, b';',
        );
        let got = outcome_at::<Bytes, (usize, u8), E, _>(&mut parser, text);
        ended(rt, (name, text), got, (want, left));
    }
}

#[test]
fn items_till_a_terminator_that_consume_nothing(rt: HostRuntime) {
    items_till::<AtBytes>(&rt, rt.alloc(), Cut);
    items_till::<Plain>(&rt, rt.alloc(), Backtrack);
}

/// A repetition of what consumes nothing, by each form of ranges.
fn repeats<O: Drop, E: ParserError<Bytes>, P: Parser<Bytes, O, E> + Copy>(
    rt: &impl Abort,
    alloc: Global,
    (name, parser): (&str, P),
    asserted: Kind,
) {
    for range in [
        Range::from(0..),
        Range::from(1..),
        Range::from(2..),
        Range::from(0..=9),
        Range::from(1..=9),
        Range::from(2),
        Range::from(..),
    ] {
        for text in ["", "a", "ab"] {
            let mut all: Repeat<P, Bytes, O, usize, E, Global> = repeat(alloc, range, parser);
            let got = outcome_at::<Bytes, usize, E, _>(&mut all, text);
            ended(rt, (name, text), got, (Err(asserted), text.len()));
            let all: Repeat<P, Bytes, O, (), E, Global> = repeat(alloc, range, parser);
            let mut all = all.fold(|| 0u8, |count: u8, _: O| count);
            let got = outcome_at::<Bytes, u8, E, _>(&mut all, text);
            ended(rt, (name, text), got, (Err(asserted), text.len()));
        }
    }
}

#[test]
fn items_that_consume_nothing(rt: HostRuntime) {
    let alloc = rt.alloc();
    repeats::<(), AtBytes, _>(&rt, alloc, ("repeat(Empty)", Empty), Cut);
    repeats::<(), Plain, _>(&rt, alloc, ("repeat(Empty)", Empty), Backtrack);
    repeats::<(), AtBytes, _>(&rt, alloc, ("repeat(())", ()), Cut);
    repeats::<usize, AtBytes, _>(&rt, alloc, ("repeat(rest_len)", RestLen), Cut);
    repeats::<usize, Plain, _>(&rt, alloc, ("repeat(rest_len)", RestLen), Backtrack);
}

/// One run of a repetition of what consumes nothing at that place.
fn repeats_once<O: Drop, P: Parser<Bytes, O, AtBytes> + Drop>(
    rt: &impl Abort,
    alloc: Global,
    (name, parser): (&str, P),
    text: &'static str,
) {
    let mut all: Repeat<P, Bytes, O, usize, AtBytes, Global> = repeat(
        alloc,
        0..,
        parser,
    );
    let got = outcome_at::<Bytes, usize, AtBytes, _>(&mut all, text);
    ended(rt, (name, text), got, (Err(Cut), text.len()));
}

#[test]
fn items_that_look_ahead(rt: HostRuntime) {
    let alloc = rt.alloc();
    repeats_once(&rt, alloc, ("repeat(opt)", opt(b'x')), "a");
    repeats_once(&rt, alloc, ("repeat(peek)", peek(Any)), "a");
    repeats_once(&rt, alloc, ("repeat(not)", not(b'x')), "a");
    let none: Take<Bytes, AtBytes> = take(0u8);
    repeats_once(&rt, alloc, ("repeat(take(0))", none), "a");
    repeats_once(
        &rt,
        alloc,
        ("repeat of an empty literal", b"".as_slice()),
        "a",
    );
}

/// Iterators over what consumes nothing give no item, and end.
#[test]
fn iterators_over_nothing(rt: HostRuntime) {
    for text in ["", "a"] {
        let mut input = text.as_bytes();
        let mut all: ParserIterator<'_, Empty, Bytes, (), AtBytes> = iterator(&mut input, Empty);
        let mut items = 0;
        for _item in &mut all {
            items += 1;
        }
        same(&rt, "iterator", text, items, 0);
        let end = answer_of::<Bytes, (), AtBytes>(all.finish());
        same(
            &rt,
            "iterator",
            text,
            (end, input.len()),
            (Err(Cut), text.len()),
        );
    }
    let mut nothing = Empty;
    let mut items = 0;
    for item in Parser::<Bytes, (), AtBytes>::parse_iter(&mut nothing, b"ab") {
        same(&rt, "parse_iter", "ab", item.is_ok(), false);
        items += 1;
    }
    same(&rt, "parse_iter", "ab", items, 1);
}

/// A number of items that consume nothing.
#[test]
fn length_repeat_of_nothing(rt: HostRuntime) {
    for (text, want, left) in [
        ("\u{1}", Err(Cut), 0),
        ("\u{7f}", Err(Cut), 0),
        ("\0", Ok(0), 0),
    ] {
        let mut parser: LengthRepeat<U8, Empty, Bytes, u8, (), usize, AtBytes, Global> =
            binary::length_repeat(rt.alloc(), U8, Empty);
        let got = outcome_at::<Bytes, usize, AtBytes, _>(&mut parser, text);
        ended(&rt, ("length_repeat(u8, Empty)", text), got, (want, left));
    }
}
