//! Options, conditions, looks ahead, and kinds of errors.
use crate::common::{AtBytes, Bytes, Plain, letter};
use std::process::Abort;
use stream_errors::parser_error::ParserError;
use streams::needed::Needed;
use streams::partial::Partial;
use streams::stream::Stream;
use test_support::at_text;
use test_support::failing::{Failing, HARD};
use test_support::outcomes::Ending::Takes;
use test_support::outcomes::Kind::{self, Backtrack, Cut};
use test_support::outcomes::{BACKTRACKS, lacks};
use test_support::rows::{Modal, answers, answers_each, ends, ends_each, like_ends};
use test_support::texts::OfText;
use winnow_ascii::ascii::impls::Digit1;
use winnow_comb::combinator;
use winnow_comb::combinator::impls::{Empty, Fail};

/// An option, of a pair and of what fails by these kinds.
fn opt_of_bytes<E: ParserError<Bytes>>(rt: &impl Abort, kinds: &[Kind]) {
    let rows = [
        ("ab;", Ok(Some((b'a', b'b'))), ";"),
        ("ac", Ok(None), "ac"),
        ("", Ok(None), ""),
    ];
    let pair = combinator::opt((b'a', b'b'));
    answers_each::<Bytes, Option<(u8, u8)>, E, _>(rt, "opt", pair, &rows);
    for kind in kinds {
        let failing = combinator::opt(Failing(*kind));
        answers::<Bytes, Option<u8>, E, _>(rt, "opt", failing, "ab", Err(*kind), "b");
    }
}

fn opt_of_a_letter<I: OfText + Stream<Token = char>, E: ParserError<I>>(rt: &impl Abort) {
    let rows = [
        ("a;", Takes(1), Takes(1)),
        (";", Takes(0), Takes(0)),
        ("", Takes(0), lacks(1)),
    ];
    let optional = combinator::opt(letter::<I, E>('a'));
    ends_each::<I, Option<I::Slice>, E, _>(rt, "opt", optional, &rows);
}

#[test]
fn opt(rt: HostRuntime) {
    opt_of_bytes::<AtBytes>(&rt, &HARD);
    opt_of_bytes::<Plain>(&rt, &[Kind::Memory]);
    let name = "opt of a cut";
    let pair = combinator::opt(combinator::cut_err((b'a', b'b')));
    answers::<Bytes, Option<(u8, u8)>, AtBytes, _>(&rt, name, pair, "ac", Err(Cut), "c");
    let digits = combinator::opt(combinator::cut_err(Digit1));
    answers::<Bytes, Option<Bytes>, AtBytes, _>(&rt, name, digits, "a", Err(Cut), "a");
    at_text!(rt; opt_of_a_letter);
    let both = (combinator::opt(letter('a')), combinator::opt(letter('a')));
    like_ends::<&str, Partial<&str>, Option<&str>, Modal, _, _>(&rt, "opt", "aba;", both, Takes(1));
}

fn cond_of_a_letter<I: OfText + Stream<Token = char>, E: ParserError<I>>(rt: &impl Abort) {
    let rows = [
        ("a;", Takes(1), Takes(1)),
        (";", BACKTRACKS, BACKTRACKS),
        ("", BACKTRACKS, lacks(1)),
    ];
    let parser = combinator::cond(true, letter::<I, E>('a'));
    ends_each::<I, Option<I::Slice>, E, _>(rt, "cond", parser, &rows);
}

#[test]
fn cond(rt: HostRuntime) {
    for (condition, text, want, rest) in [
        (true, "a;", Ok(Some(b'a')), ";"),
        (true, "b;", Err(Backtrack), "b;"),
        (false, "a;", Ok(None), "a;"),
        (false, "b;", Ok(None), "b;"),
    ] {
        let parser = combinator::cond(condition, b'a');
        answers::<Bytes, Option<u8>, AtBytes, _>(&rt, "cond", parser, text, want, rest);
    }
    at_text!(rt; cond_of_a_letter);
    let both = (combinator::cond(true, 'a'), combinator::cond(true, 'a'));
    like_ends::<&str, Partial<&str>, Option<char>, Modal, _, _>(
        &rt,
        "cond",
        "aba;",
        both,
        Takes(1),
    );
}

/// In every row the input is reset.
#[test]
fn peek(rt: HostRuntime) {
    let rows = [
        ("ab", Ok((b'a', b'b')), "ab"),
        ("ac", Err(Backtrack), "ac"),
        ("", Err(Backtrack), ""),
    ];
    let pair = combinator::peek((b'a', b'b'));
    answers_each::<Bytes, (u8, u8), AtBytes, _>(&rt, "peek", pair, &rows);
    for kind in HARD {
        let failing = combinator::peek(Failing(kind));
        answers::<Bytes, u8, AtBytes, _>(&rt, "peek", failing, "ab", Err(kind), "ab");
    }
}

fn not_a_letter<I: OfText + Stream<Token = char>, E: ParserError<I>>(rt: &impl Abort) {
    let rows = [
        ("a;", BACKTRACKS, BACKTRACKS),
        (";", Takes(0), Takes(0)),
        ("", Takes(0), lacks(1)),
    ];
    let parser = combinator::not(letter::<I, E>('a'));
    ends_each::<I, (), E, _>(rt, "not", parser, &rows);
}

/// In every row the input is reset.
#[test]
fn not(rt: HostRuntime) {
    let rows = [
        ("ab", Err(Backtrack), "ab"),
        ("ac", Ok(()), "ac"),
        ("", Ok(()), ""),
    ];
    answers_each::<Bytes, (), AtBytes, _>(&rt, "not", combinator::not((b'a', b'b')), &rows);
    for kind in HARD {
        let failing = combinator::not(Failing(kind));
        answers::<Bytes, (), AtBytes, _>(&rt, "not", failing, "ab", Err(kind), "ab");
    }
    at_text!(rt; not_a_letter);
    let both = (combinator::not('a'), combinator::not('a'));
    like_ends::<&str, Partial<&str>, (), Modal, _, _>(&rt, "not", "aba;", both, BACKTRACKS);
}

/// The result for each of the four error kinds.
#[test]
fn cut_err(rt: HostRuntime) {
    for (kind, want) in [
        (Backtrack, Cut),
        (HARD[0], HARD[0]),
        (HARD[1], HARD[1]),
        (HARD[2], HARD[2]),
    ] {
        let failing = combinator::cut_err(Failing(kind));
        answers::<Bytes, u8, AtBytes, _>(&rt, "cut_err", failing, "ab", Err(want), "b");
    }
    let byte = combinator::cut_err(b'a');
    answers::<Bytes, u8, AtBytes, _>(&rt, "cut_err", byte, "ab", Ok(b'a'), "b");
}

/// The result for each of the four error kinds.
#[test]
fn backtrack_err(rt: HostRuntime) {
    let incomplete = Kind::Incomplete(Needed::Unknown);
    for (kind, want) in [
        (Backtrack, Backtrack),
        (Cut, Backtrack),
        (incomplete, incomplete),
        (Kind::Memory, Kind::Memory),
    ] {
        let failing = combinator::backtrack_err(Failing(kind));
        answers::<Bytes, u8, AtBytes, _>(&rt, "backtrack_err", failing, "ab", Err(want), "b");
    }
    let byte = combinator::backtrack_err(b'a');
    answers::<Bytes, u8, AtBytes, _>(&rt, "backtrack_err", byte, "ab", Ok(b'a'), "b");
}

fn empty_at<I: OfText, E: ParserError<I>>(rt: &impl Abort) {
    ends::<I, (), E, _>(rt, "empty", Empty, ("a", Takes(0), Takes(0)));
}

/// Succeeds without consuming input.
#[test]
fn empty(rt: HostRuntime) {
    let behind = (b'a', Empty);
    answers::<Bytes, (u8, ()), AtBytes, _>(&rt, "empty", behind, "ab", Ok((b'a', ())), "b");
    at_text!(rt; empty_at);
    let both = (Empty, Empty);
    like_ends::<&str, Partial<&str>, (), Modal, _, _>(&rt, "empty", "aba;", both, Takes(0));
}

/// Fails without consuming input.
#[test]
fn fail(rt: HostRuntime) {
    let behind = (b'a', Fail);
    answers::<Bytes, (u8, u8), AtBytes, _>(&rt, "fail", behind, "ab", Err(Backtrack), "b");
}
