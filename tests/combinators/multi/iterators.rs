//! The runs of a parser one by one, and buffers that are filled.
use crate::common::{AtBytes, Bytes, Plain};
use std::fmt::Debug;
use std::process::Abort;
use stream_errors::parser_error::ParserError;
use streams::needed::Needed;
use streams::partial::Partial;
use streams::stream::{Stream, StreamIsPartial};
use test_support::at_text;
use test_support::failing::{Failing, HARD};
use test_support::outcomes::Kind::{self, Backtrack, Cut, Incomplete};
use test_support::outcomes::{answer_of, outcome_of};
use test_support::rows::{Modal, same};
use test_support::texts::{OfText, whole};
use winnow_comb::combinator;
use winnow_comb::combinator::impls::Empty;
use winnow_core::parser::Parser;
use winnow_repeat::combinator::ParserIterator;
use winnow_repeat::combinator::impls::Fill;
use winnow_token::token::impls::Any;

/// Checks that an iterator returns `items`, then `None` from then on, and the result and the
/// remaining units of `end`.
fn gives<I, O, E, P>(
    rt: &impl Abort,
    name: &str,
    parser: P,
    mut input: I,
    items: &[O],
    end: (Result<(), Kind>, usize),
)
where
    I: StreamIsPartial + Debug,
    O: PartialEq + Debug + Copy,
    E: ParserError<I>,
    P: Parser<I, O, E> + Drop,
{
    let mut all: ParserIterator<'_, P, I, O, E> = winnow_repeat::combinator::iterator(
        &mut input, parser,
    );
    for item in items {
        same(rt, name, "an item", all.next(), Some(*item));
    }
    same(rt, name, "behind the items", all.next(), None);
    same(rt, name, "behind the end", all.next(), None);
    let answer = answer_of::<I, (), E>(all.finish());
    same(rt, name, "the end", (answer, input.eof_offset()), end);
}

/// Items up to a run that backtracks, which leaves the input where it was before that run. One that
/// consumes nothing ends it by an assert error, of this kind.
fn iterator_of_bytes<E: ParserError<Bytes>>(rt: &impl Abort, asserted: Kind) {
    let name = "iterator";
    gives::<Bytes, u8, E, _>(rt, name, b'1', b"1a", b"1", (Ok(()), 1));
    gives::<Bytes, u8, E, _>(rt, name, b'a', b"aab", b"aa", (Ok(()), 1));
    gives::<Bytes, u8, E, _>(rt, name, b'a', b"aa", b"aa", (Ok(()), 0));
    gives::<Bytes, u8, E, _>(rt, name, b'a', b"", b"", (Ok(()), 0));
    let pair = (b'a', b'b');
    gives::<Bytes, _, E, _>(rt, name, pair, b"ababac", &[pair, pair], (Ok(()), 2));
    let name = "iterator of nothing";
    gives::<Bytes, (), E, _>(rt, name, Empty, b"a", &[], (Err(asserted), 1));
    gives::<Bytes, (), E, _>(rt, name, Empty, b"", &[], (Err(asserted), 0));
    let optional = combinator::opt(b'a');
    let items = [Some(b'a'), Some(b'a')];
    gives::<Bytes, Option<u8>, E, _>(rt, name, optional, b"aab", &items, (Err(asserted), 1));
}

/// Characters, by closures that may have state.
fn iterator_of_text<I: OfText + Stream<Token = char>, E: ParserError<I>>(rt: &impl Abort) {
    let digit = Any.verify(|c: &char| c.is_ascii_digit());
    gives::<I, char, E, _>(rt, "iterator", digit, whole("1a"), &['1'], (Ok(()), 1));
    let mut calls = 0u8;
    let all_but_second = Any.verify(move |_: &char| {
        calls += 1;
        calls != 2
    });
    let name = "iterator that stays ended";
    gives::<I, char, E, _>(rt, name, all_but_second, whole("abc"), &['a'], (Ok(()), 2));
    // Finishing succeeds also if more items could follow.
    let mut input: I = whole("ab");
    let mut all: ParserIterator<'_, Any, I, char, E> = winnow_repeat::combinator::iterator(
        &mut input, Any,
    );
    same(rt, "iterator", "the first of ab", all.next(), Some('a'));
    let answer = answer_of::<I, (), E>(all.finish());
    same(
        rt,
        "iterator",
        "one of ab",
        (answer, input.eof_offset()),
        (Ok(()), 1),
    );
}

#[test]
fn iterator(rt: HostRuntime) {
    iterator_of_bytes::<AtBytes>(&rt, Cut);
    iterator_of_bytes::<Plain>(&rt, Backtrack);
    // An error of another kind ends it, and the input stays where the failing run left it.
    for kind in HARD {
        let name = "iterator of failures";
        gives::<Bytes, u8, AtBytes, _>(&rt, name, Failing(kind), b"ab", b"", (Err(kind), 1));
    }
    let cuts = combinator::cut_err(b'a');
    gives::<Bytes, u8, AtBytes, _>(&rt, "iterator of cuts", cuts, b"aab", b"aa", (Err(Cut), 1));
    at_text!(rt; iterator_of_text);
    // On partial input a missing item is `Incomplete`.
    let cut = Partial::new("ab");
    let end = (Err(Incomplete(Needed::new(1))), 0);
    gives::<_, char, Modal, _>(&rt, "iterator, cut", Any, cut, &['a', 'b'], end);
}

/// Checks that a call replaces the old elements with `new`, and the result and the remaining units
/// of `want`.
fn fills<const N: usize, I, O, E, P>(
    rt: &impl Abort,
    name: &str,
    parser: P,
    input: I,
    (mut buffer, new): ([O; N], [O; N]),
    want: (Result<(), Kind>, usize),
)
where
    I: Stream,
    O: PartialEq + Debug + Copy,
    E: ParserError<I>,
    P: Parser<I, O, E> + Drop,
{
    let mut filling: Fill<'_, P, I, O, E> = winnow_repeat::combinator::fill(parser, &mut buffer);
    let (answer, rest) = outcome_of::<I, (), E, _>(&mut filling, input);
    same(rt, name, "the answer", (answer, rest.eof_offset()), want);
    same(rt, name, "the buffer", buffer, new);
}

/// A run an element, to the last one or the first error.
fn fill_of_text<I: OfText + Stream<Token = char>, E: ParserError<I>>(rt: &impl Abort) {
    let old = ['x', 'y', 'z'];
    let back = Err(Backtrack);
    for (text, new, want) in [
        ("ab", ['a', 'b', 'z'], (back, 0)),
        ("abc", ['a', 'b', 'c'], (Ok(()), 0)),
        ("abcd", ['a', 'b', 'c'], (Ok(()), 1)),
        ("", old, (back, 0)),
    ] {
        fills::<3, I, char, E, _>(rt, text, Any, whole(text), (old, new), want);
    }
    fills::<0, I, char, E, _>(rt, "no element", Any, whole("a"), ([], []), (Ok(()), 1));
}

#[test]
fn fill(rt: HostRuntime) {
    at_text!(rt; fill_of_text);
    // Other errors are returned unchanged too. An item may consume no input.
    for kind in HARD {
        let (failing, elements) = (Failing(kind), (*b"x", *b"x"));
        let name = "fill of a failure";
        fills::<1, Bytes, u8, AtBytes, _>(&rt, name, failing, b"ab", elements, (Err(kind), 1));
    }
    let optional = combinator::opt(b'a');
    let elements = ([None, Some(b'x')], [Some(b'a'), None]);
    let name = "fill of nothing";
    fills::<2, Bytes, _, AtBytes, _>(&rt, name, optional, b"ab", elements, (Ok(()), 1));
}
