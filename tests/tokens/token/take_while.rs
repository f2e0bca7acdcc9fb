//! The longest prefix of members of a set.
use std::fmt::Debug;
use std::process::Abort;
use stream_errors::empty::EmptyError;
use stream_errors::parser_error::ParserError;
use stream_sets::as_char::AsChar;
use stream_sets::range::Range;
use stream_sets::sets::Pred;
use streams::needed::Needed;
use streams::partial::Partial;
use test_support::at_text;
use test_support::outcomes::Ending::{Fails, Takes};
use test_support::outcomes::Kind::{self, Backtrack, Incomplete};
use test_support::outcomes::{BACKTRACKS, lacks};
use test_support::rows::{Modal, ModalAt, answers_on_cut, ends, ends_each, slices_each, sweep};
use test_support::texts::OfText;
use winnow_token::token;

/// Digits by each form of ranges. A descending range is an assert error, of this kind.
fn take_while_of_digits<I: OfText, E: ParserError<I>>(rt: &impl Abort, asserted: Kind)
where
    I::Token: AsChar + Copy,
    I::Slice: PartialEq + Debug,
{
    for (name, range, row) in [
        ("take_while(0..)", Range::from(0..), ("12;", Ok("12"), ";")),
        ("take_while(0..)", Range::from(0..), (";", Ok(""), ";")),
        ("take_while(0..)", Range::from(0..), ("", Ok(""), "")),
        ("take_while(..)", Range::from(..), ("12", Ok("12"), "")),
        ("take_while(1..)", Range::from(1..), ("12;", Ok("12"), ";")),
        (
            "take_while(1..)",
            Range::from(1..),
            (";12", Err(Backtrack), ";12"),
        ),
        (
            "take_while(1..)",
            Range::from(1..),
            ("", Err(Backtrack), ""),
        ),
        (
            "take_while(1..=3)",
            Range::from(1..=3),
            ("123", Ok("123"), ""),
        ),
        (
            "take_while(1..=3)",
            Range::from(1..=3),
            ("1234", Ok("123"), "4"),
        ),
        (
            "take_while(2..=4)",
            Range::from(2..=4),
            ("1;", Err(Backtrack), "1;"),
        ),
        ("take_while(2)", Range::from(2), ("123", Ok("12"), "3")),
        (
            "take_while(2..3)",
            Range::from(2..3),
            ("123", Ok("12"), "3"),
        ),
        (
            "take_while(3..)",
            Range::from(3..),
            ("12", Err(Backtrack), "12"),
        ),
        (
            "take_while(3..)",
            Range::from(3..),
            ("1234", Ok("1234"), ""),
        ),
        ("take_while(0)", Range::from(0), ("12", Ok(""), "12")),
        (
            "take_while(3..=2)",
            Range::from(3..=2),
            ("123", Err(asserted), "123"),
        ),
    ] {
        let digits = token::take_while(range, Pred(|token: I::Token| token.is_dec_digit()));
        slices_each::<I, E, _>(rt, name, digits, &[row]);
    }
}

/// The prefixes of digits and others, by ranges that count further than to 1. A descending range is
/// an assert error, of kind `asserted`.
fn take_while_on_beginnings<I: OfText, E: ParserError<I>>(rt: &impl Abort, asserted: Kind)
where
    I::Token: AsChar + Copy,
{
    let back = BACKTRACKS;
    let (two, three) = (Takes(2), Takes(3));
    let fails = [Fails(asserted, 0); 5];
    for (name, range, sample, as_whole, as_cut) in [
        (
            "take_while(2..=3)",
            Range::from(2..=3),
            "1234",
            [back, back, two, three, three],
            [lacks(2), lacks(1), lacks(1), three, three],
        ),
        (
            "take_while(2..)",
            Range::from(2..),
            "12;3",
            [back, back, two, two, two],
            [lacks(2), lacks(1), lacks(1), two, two],
        ),
        (
            "take_while(3)",
            Range::from(3),
            "12;3",
            [back; 5],
            [lacks(3), lacks(2), lacks(1), back, back],
        ),
        (
            "take_while(3..=2)",
            Range::from(3..=2),
            "12;3",
            fails,
            fails,
        ),
    ] {
        let digits = token::take_while(range, b'0'..=b'9');
        sweep::<I, _, E, _>(rt, name, digits, sample, &as_whole, &as_cut);
    }
}

/// Characters of two bytes, by ranges of characters.
fn take_while_of_text<I: OfText, E: ParserError<I>>(rt: &impl Abort)
where
    I::Token: AsChar + Copy,
{
    for (name, range, row) in [
        (
            "take_while(1..=3)",
            Range::from(1..=3),
            ("ééé", Takes(6), Takes(6)),
        ),
        (
            "take_while(1..=3)",
            Range::from(1..=3),
            ("éé", Takes(4), lacks(1)),
        ),
        (
            "take_while(2..=4)",
            Range::from(2..=4),
            ("", BACKTRACKS, lacks(2)),
        ),
        (
            "take_while(5..)",
            Range::from(5..),
            ("éé", BACKTRACKS, lacks(1)),
        ),
        (
            "take_while(0..)",
            Range::from(0..),
            ("éé", Takes(4), lacks(1)),
        ),
        (
            "take_while(0..)",
            Range::from(0..),
            ("éé;", Takes(4), Takes(4)),
        ),
    ] {
        ends::<I, _, E, _>(rt, name, token::take_while(range, 'é'), row);
    }
    let as_cut = [lacks(1), lacks(1), lacks(1), Takes(4)];
    let any = token::take_while(0.., 'é');
    let as_whole = [Takes(0), Takes(2), Takes(4), Takes(4)];
    sweep::<I, _, E, _>(rt, "take_while(0..)", any, "éé;", &as_whole, &as_cut);
    let some = token::take_while(1.., 'é');
    let as_whole = [BACKTRACKS, Takes(2), Takes(4), Takes(4)];
    sweep::<I, _, E, _>(rt, "take_while(1..)", some, "éé;", &as_whole, &as_cut);
}

#[test]
fn take_while(rt: HostRuntime) {
    at_text!(rt; take_while_of_text);
    let rows = [("", Takes(0), BACKTRACKS), ("é", Takes(2), BACKTRACKS)];
    let any = token::take_while(0.., 'é');
    ends_each::<Partial<&str>, _, EmptyError, _>(&rt, "take_while, plain", any, &rows);
    take_while_of_digits::<&[u8], ModalAt<&'static [u8]>>(&rt, Kind::Cut);
    take_while_of_digits::<Partial<&[u8]>, Modal>(&rt, Kind::Cut);
    take_while_of_digits::<&[u8], EmptyError>(&rt, Backtrack);
    take_while_on_beginnings::<&[u8], ModalAt<&'static [u8]>>(&rt, Kind::Cut);
    take_while_on_beginnings::<Partial<&[u8]>, Modal>(&rt, Kind::Cut);
    take_while_on_beginnings::<&[u8], EmptyError>(&rt, Backtrack);
}

#[test]
fn take_while_of_at_most_three(rt: HostRuntime) {
    let three = Range::from(1..=3);
    for row in [
        ("123", Ok("123"), ""),
        ("12", Err(Incomplete(Needed::new(1))), "12"),
    ] {
        let name = "take_while(1..=3), cut";
        let mut digits = token::take_while(three, b'0'..=b'9');
        answers_on_cut::<Partial<&str>, &str, Modal, _>(&rt, name, &mut digits, row);
    }
}
