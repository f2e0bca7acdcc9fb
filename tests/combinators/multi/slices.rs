//! Repetitions into slices.
use crate::common::{AtBytes, Bytes, Plain};
use std::fmt::Debug;
use std::process::Abort;
use stream_errors::external::FromExternalError;
use stream_errors::parser_error::ParserError;
use streams::needed::Needed;
use streams::partial::Partial;
use streams::stream::Stream;
use test_support::at_text;
use test_support::failing::{Failing, HARD};
use test_support::outcomes::Kind::{self, Backtrack, Cut, Incomplete};
use test_support::outcomes::answer_of;
use test_support::rows::{Modal, same};
use test_support::texts::{OfText, whole};
use winnow_comb::combinator;
use winnow_core::parser::Parser;
use winnow_repeat::combinator::TooMany;
use winnow_token::token::impls::Any;

/// Checks that a call replaces the old elements with `new`, and the result and the remaining units
/// of `want`.
fn stores<const N: usize, I, O, E, P>(
    rt: &impl Abort,
    name: &str,
    mut parser: P,
    mut input: I,
    (mut slice, new): ([O; N], [O; N]),
    want: (Result<usize, Kind>, usize),
)
where
    I: Stream,
    O: PartialEq + Debug + Copy,
    E: ParserError<I> + FromExternalError<I, TooMany>,
    P: Parser<I, O, E> + Drop,
{
    let answer: Result<usize, E> = winnow_repeat::combinator::repeat_into_slice(
        &mut input, &mut parser, &mut slice,
    );
    let answer = answer_of::<I, usize, E>(answer);
    same(rt, name, "the answer", (answer, input.eof_offset()), want);
    same(rt, name, "the slice", slice, new);
}

/// As many items as match, if there is an element for each.
fn items_of_text<I, E>(rt: &impl Abort)
where
    I: OfText + Stream<Token = char>,
    E: ParserError<I> + FromExternalError<I, TooMany>,
{
    let old = ['x', 'y', 'z'];
    for (text, new, want) in [
        ("", old, (Ok(0), 0)),
        ("a", ['a', 'y', 'z'], (Ok(1), 0)),
        ("ab", ['a', 'b', 'z'], (Ok(2), 0)),
        ("abc", ['a', 'b', 'c'], (Ok(3), 0)),
        ("abcd", ['a', 'b', 'c'], (Err(Backtrack), 1)),
        ("abcde", ['a', 'b', 'c'], (Err(Backtrack), 2)),
        ("1a", old, (Ok(0), 2)),
        ("abc1", ['a', 'b', 'c'], (Ok(3), 1)),
    ] {
        let letter = Any.verify(|c: &char| c.is_alphabetic());
        stores::<3, I, char, E, _>(rt, text, letter, whole(text), (old, new), want);
    }
    stores::<0, I, char, E, _>(rt, "no element", Any, whole(""), ([], []), (Ok(0), 0));
    let none = (Err(Backtrack), 1);
    stores::<0, I, char, E, _>(rt, "no element", Any, whole("a"), ([], []), none);
}

/// An item that consumes nothing is an assert error of this kind.
fn items_of_nothing<E>(rt: &impl Abort, asserted: Kind)
where
    E: ParserError<Bytes> + FromExternalError<Bytes, TooMany>,
{
    let name = "items of nothing";
    let optional = combinator::opt(b'a');
    let old = [None, Some(b'x')];
    let one = (old, [Some(b'a'), Some(b'x')]);
    stores::<2, Bytes, _, E, _>(rt, name, optional, b"ab", one, (Err(asserted), 1));
    let optional = combinator::opt(b'a');
    let full = (old, [Some(b'a'), Some(b'a')]);
    stores::<2, Bytes, _, E, _>(rt, name, optional, b"aab", full, (Err(asserted), 1));
}

#[test]
fn repeat_into_slice(rt: HostRuntime) {
    at_text!(rt; items_of_text);
    items_of_nothing::<AtBytes>(&rt, Cut);
    items_of_nothing::<Plain>(&rt, Backtrack);
    // Other errors are returned unchanged, also if every element is overwritten.
    for kind in HARD {
        let name = "repeat_into_slice of a failure";
        let kept = (*b"x", *b"x");
        stores::<1, Bytes, u8, AtBytes, _>(&rt, name, Failing(kind), b"ab", kept, (Err(kind), 1));
        let none = ([], []);
        stores::<0, Bytes, u8, AtBytes, _>(&rt, name, Failing(kind), b"ab", none, (Err(kind), 1));
    }
    // On partial input a missing item is `Incomplete`; too many items are an error at once.
    let asks = Err(Incomplete(Needed::new(1)));
    let name = "repeat_into_slice, partial";
    let (two, one) = ((['x', 'y'], ['a', 'b']), (['x'], ['a']));
    stores::<2, _, char, Modal, _>(&rt, name, Any, Partial::new("ab"), two, (asks, 0));
    stores::<1, _, char, Modal, _>(&rt, name, Any, Partial::new("ab"), one, (Err(Backtrack), 1));
}
