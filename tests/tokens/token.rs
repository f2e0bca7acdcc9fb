//! Parsers of tokens.
mod byte_sets;
mod literal;
mod take_till;
mod take_until;
mod take_while;

use std::fmt::Debug;
use std::process::Abort;
use stream_errors::empty::EmptyError;
use stream_errors::parser_error::ParserError;
use stream_sets::as_char::AsChar;
use streams::partial::Partial;
use streams::token_slice::TokenSlice;
use test_support::outcomes::Ending::Takes;
use test_support::outcomes::{BACKTRACKS, LACKS, lacks, outcome_of};
use test_support::rows::{Modal, answers, ends, ends_each, same, sweep};
use test_support::texts::OfText;
use test_support::{at_bytes, at_text};
use winnow_token::token;
use winnow_token::token::impls::{Any, Rest, RestLen};

/// A character of one byte or of two.
fn any_of_text<I: OfText, E: ParserError<I>>(rt: &impl Abort) {
    let rows = [
        ("", BACKTRACKS, lacks(1)),
        ("a;", Takes(1), Takes(1)),
        ("é;", Takes(2), Takes(2)),
    ];
    ends_each::<I, _, E, _>(rt, "any", Any, &rows);
    let as_whole = [BACKTRACKS, Takes(2), Takes(2)];
    let as_cut = [lacks(1), Takes(2), Takes(2)];
    sweep::<I, _, E, _>(rt, "any", Any, "éa", &as_whole, &as_cut);
}

#[test]
fn any(rt: HostRuntime) {
    at_text!(rt; any_of_text);
    let tokens = TokenSlice::new(&[7, 8]);
    let got = outcome_of::<_, &i32, Modal, _>(&mut Any, tokens);
    same(
        &rt,
        "any",
        "a list of tokens",
        got,
        (Ok(&7), TokenSlice::new(&[8])),
    );
}

fn one_of_text<I: OfText, E: ParserError<I>>(rt: &impl Abort)
where
    I::Token: AsChar + Copy,
{
    let rows = [("a;", Takes(1), Takes(1)), ("é;", BACKTRACKS, BACKTRACKS)];
    ends_each::<I, _, E, _>(rt, "one_of", token::one_of('a'..='z'), &rows);
    ends::<I, _, E, _>(rt, "one_of", token::one_of('a'), ("", BACKTRACKS, lacks(1)));
    let as_whole = [BACKTRACKS, Takes(1), Takes(1)];
    let as_cut = [lacks(1), Takes(1), Takes(1)];
    let letter = token::one_of('a'..='z');
    sweep::<I, _, E, _>(rt, "one_of", letter, "a;", &as_whole, &as_cut);
}

#[test]
fn one_of(rt: HostRuntime) {
    at_text!(rt; one_of_text);
}

fn none_of_text<I: OfText, E: ParserError<I>>(rt: &impl Abort)
where
    I::Token: AsChar + Copy,
{
    let rows = [("a;", BACKTRACKS, BACKTRACKS), ("é;", Takes(2), Takes(2))];
    ends_each::<I, _, E, _>(rt, "none_of", token::none_of('a'..='z'), &rows);
    let as_cut = [lacks(1), BACKTRACKS, BACKTRACKS];
    let other = token::none_of(';');
    sweep::<I, _, E, _>(rt, "none_of", other, ";a", &[BACKTRACKS; 3], &as_cut);
}

#[test]
fn none_of(rt: HostRuntime) {
    at_text!(rt; none_of_text);
}

/// So many characters: how many bytes are missing is not known.
fn take_of_text<I: OfText, E: ParserError<I>>(rt: &impl Abort) {
    ends::<I, _, E, _>(rt, "take(3)", token::take(3u8), ("ab", BACKTRACKS, LACKS));
    ends::<I, _, E, _>(rt, "take(2)", token::take(2u8), ("éa;", Takes(3), Takes(3)));
    let as_whole = [BACKTRACKS, BACKTRACKS, Takes(5), Takes(5)];
    let as_cut = [LACKS, LACKS, Takes(5), Takes(5)];
    sweep::<I, _, E, _>(rt, "take(2)", token::take(2u8), "é€a", &as_whole, &as_cut);
}

/// So many bytes.
fn take_of_bytes<I: OfText, E: ParserError<I>>(rt: &impl Abort) {
    for (name, count, row) in [
        ("take(3)", 3usize, ("abcd", Takes(3), Takes(3))),
        ("take(3)", 3, ("ab", BACKTRACKS, lacks(1))),
        ("take(0)", 0, ("", Takes(0), Takes(0))),
        (
            "take(usize::MAX)",
            usize::MAX,
            ("a", BACKTRACKS, lacks(usize::MAX - 1)),
        ),
    ] {
        ends::<I, _, E, _>(rt, name, token::take(count), row);
    }
    let as_whole = [BACKTRACKS, BACKTRACKS, Takes(2), Takes(2)];
    let as_cut = [lacks(2), lacks(1), Takes(2), Takes(2)];
    sweep::<I, _, E, _>(
        rt,
        "take(2)",
        token::take(2usize),
        "abc",
        &as_whole,
        &as_cut,
    );
}

#[test]
fn take(rt: HostRuntime) {
    at_text!(rt; take_of_text);
    at_bytes!(rt; take_of_bytes);
    let rows = [("", BACKTRACKS, BACKTRACKS), ("é", BACKTRACKS, BACKTRACKS)];
    ends_each::<Partial<&str>, _, EmptyError, _>(&rt, "take(2)", token::take(2usize), &rows);
}

/// Texts, and how many units they have.
const TEXTS: [(&'static str, usize); 4] = [("", 0), ("é", 2), ("éa", 3), ("ab", 2)];

/// All remaining input, without `Incomplete`; and the length of the rest after it.
fn rest_of_text<I: OfText, E: ParserError<I>>(rt: &impl Abort)
where
    I::Slice: PartialEq + Debug,
{
    for (text, units) in TEXTS {
        let all = || I::slice_of_text(text);
        ends::<I, _, E, _>(rt, "rest", Rest, (text, Takes(units), Takes(units)));
        answers::<I, _, E, _>(rt, "rest", Rest, text, Ok(all()), "");
        answers::<I, _, E, _>(rt, "rest", (Rest, RestLen), text, Ok((all(), 0)), "");
        ends::<I, _, E, _>(
            rt,
            "rest",
            (Rest, RestLen),
            (text, Takes(units), Takes(units)),
        );
    }
}

#[test]
fn rest(rt: HostRuntime) {
    at_text!(rt; rest_of_text);
}

/// How much is there.
fn rest_len_of_text<I: OfText, E: ParserError<I>>(rt: &impl Abort) {
    for (text, units) in TEXTS {
        ends::<I, _, E, _>(rt, "rest_len", RestLen, (text, Takes(0), Takes(0)));
        answers::<I, usize, E, _>(rt, "rest_len", RestLen, text, Ok(units), text);
    }
}

#[test]
fn rest_len(rt: HostRuntime) {
    at_text!(rt; rest_len_of_text);
}
