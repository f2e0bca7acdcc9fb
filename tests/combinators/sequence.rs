//! Sequences.
use crate::common::{AtBytes, Bytes, letter};
use std::process::Abort;
use stream_errors::parser_error::ParserError;
use streams::partial::Partial;
use streams::stream::Stream;
use test_support::at_text;
use test_support::outcomes::Ending::Takes;
use test_support::outcomes::Kind::Backtrack;
use test_support::outcomes::{BACKTRACKS, backtracks_behind, lacks_one_behind};
use test_support::rows::{Modal, answers_each, ends_each, like_ends};
use test_support::texts::OfText;
use winnow_comb::combinator;

fn preceded_letters<I: OfText + Stream<Token = char>, E: ParserError<I>>(rt: &impl Abort) {
    let back = backtracks_behind(1);
    let rows = [
        ("aba", Takes(2), Takes(2)),
        ("ab", Takes(2), Takes(2)),
        ("a", back, lacks_one_behind(1)),
        ("aa", back, back),
        ("b", BACKTRACKS, BACKTRACKS),
    ];
    let pair = combinator::preceded(letter::<I, E>('a'), letter::<I, E>('b'));
    ends_each::<I, I::Slice, E, _>(rt, "preceded", pair, &rows);
}

#[test]
fn preceded(rt: HostRuntime) {
    let rows = [
        ("ab;", Ok(b'b'), ";"),
        ("ac", Err(Backtrack), "c"),
        ("b", Err(Backtrack), "b"),
    ];
    let pair = combinator::preceded(b'a', b'b');
    answers_each::<Bytes, u8, AtBytes, _>(&rt, "preceded", pair, &rows);
    at_text!(rt; preceded_letters);
    let both = (
        combinator::preceded('a', 'b'),
        combinator::preceded('a', 'b'),
    );
    let name = "preceded";
    like_ends::<&str, Partial<&str>, char, Modal, _, _>(&rt, name, "aba;", both, Takes(2));
}

#[test]
fn terminated(rt: HostRuntime) {
    let rows = [
        ("ab;", Ok(b'a'), ";"),
        ("ac", Err(Backtrack), "c"),
        ("b", Err(Backtrack), "b"),
    ];
    let pair = combinator::terminated(b'a', b'b');
    answers_each::<Bytes, u8, AtBytes, _>(&rt, "terminated", pair, &rows);
}

fn separated_letters<I: OfText + Stream<Token = char>, E: ParserError<I>>(rt: &impl Abort) {
    let rows = [
        ("aba", Takes(3), Takes(3)),
        ("ab", backtracks_behind(2), lacks_one_behind(2)),
        ("a", backtracks_behind(1), lacks_one_behind(1)),
        ("aa", backtracks_behind(1), backtracks_behind(1)),
        ("b", BACKTRACKS, BACKTRACKS),
    ];
    let a = letter::<I, E>('a');
    let pair = combinator::separated_pair(a, letter::<I, E>('b'), letter::<I, E>('a'));
    ends_each::<I, (I::Slice, I::Slice), E, _>(rt, "separated_pair", pair, &rows);
}

#[test]
fn separated_pair(rt: HostRuntime) {
    let name = "separated_pair";
    let rows = [
        ("abc;", Ok((b'a', b'c')), ";"),
        ("abb", Err(Backtrack), "b"),
        ("ac", Err(Backtrack), "c"),
        ("b", Err(Backtrack), "b"),
    ];
    let pair = combinator::separated_pair(b'a', b'b', b'c');
    answers_each::<Bytes, (u8, u8), AtBytes, _>(&rt, name, pair, &rows);
    at_text!(rt; separated_letters);
    let both = (
        combinator::separated_pair('a', 'b', 'a'),
        combinator::separated_pair('a', 'b', 'a'),
    );
    like_ends::<&str, Partial<&str>, (char, char), Modal, _, _>(&rt, name, "aba;", both, Takes(3));
}

#[test]
fn delimited(rt: HostRuntime) {
    let rows = [
        ("abc;", Ok(b'b'), ";"),
        ("abb", Err(Backtrack), "b"),
        ("ac", Err(Backtrack), "c"),
        ("b", Err(Backtrack), "b"),
    ];
    let inner = combinator::delimited(b'a', b'b', b'c');
    answers_each::<Bytes, u8, AtBytes, _>(&rt, "delimited", inner, &rows);
}
