//! The accumulators of repetitions and separated lists.
use crate::common::letter;
use std::alloc::{Allocator, Global};
use std::collections::BTreeMap;
use std::process::Abort;
use stream_errors::empty::EmptyError;
use stream_errors::parser_error::ParserError;
use stream_sets::accumulate::Accumulate;
use stream_sets::range::Range;
use test_support::outcomes::Kind::{self, Backtrack, Cut};
use test_support::refusing::{Refusing, refused_in_turn};
use test_support::rows::{Modal, outcome_at, same};
use winnow_ascii::ascii::impls::Digit1;
use winnow_comb::combinator::impls::Empty;
use winnow_core::parser::Parser;
use winnow_repeat::combinator::impls::{Repeat, RepeatTill};
use winnow_separated::combinator::impls::Separated;
use winnow_token::token::impls::{Any, TakeWhile};

/// The accumulator of a run or the kind of its error, and the units left.
type Held<C> = (Result<C, Kind>, usize);

/// One run of a repetition.
fn repeated<O, C, E, P, A>(alloc: A, range: Range, parser: P, text: &'static str) -> Held<C>
where
    O: Drop,
    C: Accumulate<O, A>,
    E: ParserError<&'static str>,
    P: Parser<&'static str, O, E> + Drop,
    A: Allocator + Copy,
{
    let mut parser: Repeat<P, &str, O, C, E, A> = winnow_repeat::combinator::repeat(
        alloc, range, parser,
    );
    let (answer, rest) = outcome_at::<&str, C, E, _>(&mut parser, text);
    (answer, rest.len())
}

/// One run of a separation by commas, of any number.
fn by_commas<O, C, E, P, A>(alloc: A, parser: P, text: &'static str) -> Held<C>
where
    O: Drop,
    C: Accumulate<O, A>,
    E: ParserError<&'static str>,
    P: Parser<&'static str, O, E> + Drop,
    A: Allocator + Copy,
{
    type Comma<E> = TakeWhile<char, &'static str, E>;
    let mut parser: Separated<P, Comma<E>, &str, O, &str, C, E, A> =
        winnow_separated::combinator::separated(alloc, 0.., parser, letter(','));
    let (answer, rest) = outcome_at::<&str, C, E, _>(&mut parser, text);
    (answer, rest.len())
}

/// The number of outputs.
#[test]
fn repeat_into_a_number(rt: HostRuntime) {
    let alloc = rt.alloc();
    for (name, range, text, want, left) in [
        ("repeat(0..)", Range::from(0..), "aéb", Ok(3), 0),
        ("repeat(0..)", Range::from(0..), "", Ok(0), 0),
        ("repeat(..=2)", Range::from(..=2), "abc", Ok(2), 1),
        ("repeat(3..)", Range::from(3..), "ab", Err(Backtrack), 0),
    ] {
        let got = repeated::<char, usize, Modal, _, _>(alloc, range, Any, text);
        same(&rt, name, text, got, (want, left));
    }
    let got = repeated::<(), usize, Modal, _, _>(alloc, Range::from(1..), Empty, "a");
    same(&rt, "repeat(1.., Empty)", "a", got, (Err(Cut), 1));
}

/// The number of outputs.
#[test]
fn separated_into_a_number(rt: HostRuntime) {
    for (text, want, left) in [("a,a,a;", Ok(3), 1), ("a,a,", Ok(2), 1), ("b", Ok(0), 1)] {
        let got = by_commas::<&str, usize, Modal, _, _>(rt.alloc(), letter('a'), text);
        same(&rt, "separated(0..)", text, got, (want, left));
    }
}

/// Checks the text that outputs were accumulated into.
fn same_text(
    rt: &impl Abort,
    name: &str,
    row: &str,
    (answer, left): Held<String>,
    want: (Result<&'static str, Kind>, usize),
) {
    match answer {
        Ok(text) => same(rt, name, row, (Ok(text.as_str()), left), want),
        Err(kind) => same(rt, name, row, (Err(kind), left), want),
    }
}

/// Characters, in order.
#[test]
fn repeat_into_a_string(rt: HostRuntime) {
    for (name, range, text, want, left) in [
        ("repeat(0..)", Range::from(0..), "aé€😀b", Ok("aé€😀b"), 0),
        ("repeat(0..)", Range::from(0..), "", Ok(""), 0),
        ("repeat(1..)", Range::from(1..), "éa", Ok("éa"), 0),
        ("repeat(2)", Range::from(2), "béa", Ok("bé"), 1),
        ("repeat(3..)", Range::from(3..), "ab", Err(Backtrack), 0),
    ] {
        let got = repeated::<char, String, Modal, _, _>(rt.alloc(), range, Any, text);
        same_text(&rt, name, text, got, (want, left));
    }
}

/// Texts, in order.
#[test]
fn separated_into_a_string(rt: HostRuntime) {
    for (text, want, left) in [
        ("3,21,4;", Ok("3214"), 1),
        ("1,", Ok("1"), 1),
        (";", Ok(""), 1),
    ] {
        let got = by_commas::<&str, String, Modal, _, _>(rt.alloc(), Digit1, text);
        same_text(&rt, "separated(0..)", text, got, (want, left));
    }
}

/// Slices joined in a list, and a refused allocation that leaves what was accumulated.
#[test]
fn separated_into_a_list_of_slices(rt: HostRuntime) {
    for (text, want, left) in [("3,21,4;", "3214", 1), ("12,", "12", 1), (";", "", 1)] {
        let mut input = text.as_bytes();
        let read: Result<Vec<u8>, Modal> =
            winnow_separated::combinator::separated(rt.alloc(), 0.., Digit1, b',')
                .parse_next(&mut input);
        let same_items = matches!(read, Ok(list) if list.as_slice() == want.as_bytes());
        assert!(rt; same_items, "{}", text);
        assert_eq!(rt; input.len(), left);
    }
    let heap = Refusing::always_from(rt.alloc(), 0);
    let mut list: Vec<u8, &Refusing<Global>> = Vec::new(&heap);
    let slice: &[u8] = b"12";
    assert!(rt; Accumulate::<&[u8], &Refusing<Global>>::accumulate(&mut list, slice).is_err());
    assert!(rt; list.is_empty());
}

/// One run of a repetition till a semicolon.
fn till_semicolon<O, C, P>(
    alloc: Global,
    range: Range,
    parser: P,
    text: &'static str,
) -> (Result<(C, char), Kind>, &'static str)
where
    O: Drop,
    C: Accumulate<O, Global> + Drop,
    P: Parser<&'static str, O, Modal> + Drop,
{
    let mut parser: RepeatTill<P, char, &str, O, char, C, Modal, Global> =
        winnow_repeat::combinator::repeat_till(alloc, range, parser, ';');
    outcome_at::<&str, (C, char), Modal, _>(&mut parser, text)
}

#[test]
fn repeat_till_into_a_string(rt: HostRuntime) {
    for (name, range, text, want, rest) in [
        ("repeat_till(0..)", Range::from(0..), "ab;c", Ok("ab"), "c"),
        (
            "repeat_till(0..)",
            Range::from(0..),
            "ab",
            Err(Backtrack),
            "",
        ),
        ("repeat_till(2..)", Range::from(2..), ";;;x", Ok(";;"), "x"),
        (
            "repeat_till(0..=1)",
            Range::from(0..=1),
            "ab;",
            Err(Backtrack),
            "b;",
        ),
    ] {
        let (answer, left) = till_semicolon::<char, String, _>(rt.alloc(), range, Any, text);
        match answer {
            Ok((held, end)) => {
                same(&rt, name, text, Ok(held.as_str()), want);
                same(&rt, name, text, end, ';');
            }
            Err(kind) => same(&rt, name, text, Err(kind), want),
        }
        same(&rt, name, text, left, rest);
    }
}

#[test]
fn repeat_till_into_a_number(rt: HostRuntime) {
    for (name, range, text, want, rest) in [
        (
            "repeat_till(0.., Empty)",
            Range::from(0..),
            "a",
            Err(Cut),
            "a",
        ),
        (
            "repeat_till(2.., Empty)",
            Range::from(2..),
            ";",
            Ok((2, ';')),
            "",
        ),
    ] {
        let got = till_semicolon::<(), usize, _>(rt.alloc(), range, Empty, text);
        same(&rt, name, text, got, (want, rest));
    }
    let got = till_semicolon::<char, usize, _>(rt.alloc(), Range::from(0..), Any, "aé;b");
    same(&rt, "repeat_till(0..)", "aé;b", got, (Ok((2, ';')), "b"));
}

/// The values of `a` and `b` in a map of the pairs of a text, and the number of its entries.
fn paired<E: ParserError<&'static str>, A: Allocator + Copy>(
    alloc: A,
    text: &'static str,
) -> Held<(Option<char>, Option<char>, usize)> {
    let (answer, left) = repeated::<(char, char), BTreeMap<char, char, A>, E, _, A>(
        alloc,
        Range::from(0..),
        (Any, Any),
        text,
    );
    match answer {
        Ok(map) => {
            let seen = (map.get(&'a').copied(), map.get(&'b').copied(), map.len());
            (Ok(seen), left)
        }
        Err(kind) => (Err(kind), left),
    }
}

/// Pairs by their keys: the last value of a key is kept.
#[test]
fn repeat_into_a_map(rt: HostRuntime) {
    for (text, want, left) in [
        ("a1b2a3", (Some('3'), Some('2'), 2), 0),
        ("b1c2b3c4d", (None, Some('3'), 2), 1),
        ("a1a2a1", (Some('1'), None, 1), 0),
        ("a", (None, None, 0), 1),
    ] {
        let got = paired::<Modal, Global>(rt.alloc(), text);
        same(
            &rt,
            "repeat(0..) into BTreeMap",
            text,
            got,
            (Ok(want), left),
        );
    }
}

/// Replaces the accumulated text with its length.
fn length<A: Allocator>((answer, left): Held<String<A>>) -> Held<usize> {
    match answer {
        Ok(text) => (Ok(text.len()), left),
        Err(kind) => (Err(kind), left),
    }
}

#[test]
fn repeat_into_a_string_without_memory(rt: HostRuntime) {
    let text = "abcdefghijklmnopqrstuvwxyz0123456789";
    let any = Range::from(0..);
    refused_in_turn(
        &rt,
        "repeat into String",
        rt.alloc(),
        |heap| length(repeated::<char, String<_>, EmptyError, _, _>(heap, any, Any, text)),
        (Ok(36), 0),
    );
}

#[test]
fn separated_into_a_string_without_memory(rt: HostRuntime) {
    let text = "1234567,890123,4567890,12345678901234567890;";
    refused_in_turn(
        &rt,
        "separated into String",
        rt.alloc(),
        |heap| length(by_commas::<&str, String<_>, EmptyError, _, _>(heap, Digit1, text)),
        (Ok(40), 1),
    );
}

#[test]
fn repeat_into_a_map_without_memory(rt: HostRuntime) {
    let text = "a1b2c3d4e5f6g7h8i9j0k1l2m3n4o5p6q7r8s9t0u1v2w3x4y5z6";
    refused_in_turn(
        &rt,
        "repeat into BTreeMap",
        rt.alloc(),
        |heap| paired::<EmptyError, _>(heap, text),
        (Ok((Some('1'), Some('2'), 26)), 0),
    );
    // Further values of an existing key do not allocate.
    let heap = Refusing::always_from(rt.alloc(), 1);
    let got = paired::<EmptyError, _>(&heap, "a1a2a3a4");
    same(
        &rt,
        "repeat into BTreeMap",
        "a1a2a3a4",
        got,
        (Ok((Some('4'), None, 1)), 0),
    );
    assert!(rt; !heap.met(), "a map of one key asks once");
}
