//! Repetitions.
use super::counted;
use crate::common::{AtBytes, Bytes, Plain, letter};
use std::alloc::{Allocator, Global};
use std::process::Abort;
use stream_errors::parser_error::ParserError;
use stream_sets::range::Range;
use streams::partial::Partial;
use streams::stream::Stream;
use test_support::outcomes::Ending::Takes;
use test_support::outcomes::Kind::{self, Backtrack, Cut};
use test_support::outcomes::{BACKTRACKS, CUTS, backtracks_behind, lacks, lacks_one_behind};
use test_support::refusing::refused_in_turn;
use test_support::rows::{Modal, ends, like_ends, outcome_at, same};
use test_support::texts::OfText;
use winnow_ascii::ascii::impls::Digit1;
use winnow_comb::combinator;
use winnow_comb::combinator::impls::Empty;
use winnow_core::parser::Parser;
use winnow_repeat::combinator::impls::Repeat;
use winnow_token::token::impls::TakeWhile;

/// One run of a repetition into a list, and the units left.
fn listed<O: Drop, E: ParserError<Bytes>, P: Parser<Bytes, O, E> + Drop, A: Allocator + Copy>(
    alloc: A,
    range: Range,
    parser: P,
    text: &'static str,
) -> (Result<Vec<O, A>, Kind>, usize) {
    let mut parser: Repeat<P, Bytes, O, Vec<O, A>, E, A> = winnow_repeat::combinator::repeat(
        alloc, range, parser,
    );
    let (answer, rest) = outcome_at::<Bytes, Vec<O, A>, E, _>(&mut parser, text);
    (answer, rest.len())
}

/// Pairs of letters by each form of ranges.
#[test]
fn repeat(rt: HostRuntime) {
    for (name, range, text, want, left) in [
        ("repeat(0..)", Range::from(0..), "ababa;", Ok(2), 2),
        ("repeat(0..)", Range::from(0..), "ba", Ok(0), 2),
        ("repeat(1..)", Range::from(1..), "ababa;", Ok(2), 2),
        ("repeat(1..)", Range::from(1..), "ba", Err(Backtrack), 2),
        ("repeat(3..)", Range::from(3..), "ababac", Err(Backtrack), 1),
        ("repeat(2)", Range::from(2), "ababab", Ok(2), 2),
        ("repeat(0)", Range::from(0), "ab", Ok(0), 2),
        ("repeat(1..=2)", Range::from(1..=2), "ababab", Ok(2), 2),
        ("repeat(1..3)", Range::from(1..3), "abx", Ok(1), 1),
        ("repeat(3..=2)", Range::from(3..=2), "ababab", Err(Cut), 6),
    ] {
        let run = listed::<(u8, u8), AtBytes, _, _>(rt.alloc(), range, (b'a', b'b'), text);
        same(&rt, name, text, counted(run), (want, left));
    }
    let run = listed::<Bytes, AtBytes, _, _>(rt.alloc(), Range::from(3..=2), Digit1, "123");
    same(
        &rt,
        "repeat(3..=2, digit1)",
        "123",
        counted(run),
        (Err(Cut), 3),
    );
}

/// Items that consume nothing are an assert error; only the first of the form `1..` may.
#[test]
fn repeat_of_nothing(rt: HostRuntime) {
    let alloc = rt.alloc();
    let run = listed::<(), AtBytes, _, _>(alloc, Range::from(0..), (), "a");
    same(&rt, "repeat(0.., ())", "a", counted(run), (Err(Cut), 1));
    for (text, left) in [("", 0), ("a", 1)] {
        let run = listed::<(), AtBytes, _, _>(alloc, Range::from(0..), Empty, text);
        same(
            &rt,
            "repeat(0.., Empty)",
            text,
            counted(run),
            (Err(Cut), left),
        );
    }
    let first = combinator::opt(b'a');
    let run = listed::<Option<u8>, AtBytes, _, _>(alloc, Range::from(1..), first, "b");
    same(&rt, "repeat(1.., opt)", "b", counted(run), (Err(Cut), 1));
    let run = listed::<(), Plain, _, _>(alloc, Range::from(2), (), "a");
    same(
        &rt,
        "repeat(2, ()), plain",
        "a",
        counted(run),
        (Err(Backtrack), 1),
    );
}

/// Nothing need be kept.
#[test]
fn repeat_into_nothing(rt: HostRuntime) {
    let mut kept: Repeat<u8, Bytes, u8, (), Plain, Global> = winnow_repeat::combinator::repeat(
        rt.alloc(),
        0..,
        b'a',
    );
    let got = outcome_at::<Bytes, (), Plain, _>(&mut kept, "aab");
    same(
        &rt,
        "repeat(0.., b'a')",
        "aab",
        got,
        (Ok(()), b"b".as_slice()),
    );
}

#[test]
fn repeat_without_memory(rt: HostRuntime) {
    let text = "aaaaaaaaaaaaaaaab";
    refused_in_turn(
        &rt,
        "repeat",
        rt.alloc(),
        |heap| counted(listed::<u8, Plain, _, _>(heap, Range::from(0..), b'a', text)),
        (Ok(16), 1),
    );
}

/// Letters by ranges, on complete and on partial input, accumulated into `()`.
fn letters<I: OfText + Stream<Token = char>, E: ParserError<I>>(rt: &impl Abort, alloc: Global) {
    let two = Takes(2);
    for (name, range, row) in [
        ("repeat(0..)", Range::from(0..), ("aa;", two, two)),
        (
            "repeat(0..)",
            Range::from(0..),
            ("aa", two, lacks_one_behind(2)),
        ),
        ("repeat(..=2)", Range::from(..=2), ("aa", two, two)),
        (
            "repeat(1..)",
            Range::from(1..),
            ("a", Takes(1), lacks_one_behind(1)),
        ),
        ("repeat(1..)", Range::from(1..), ("", BACKTRACKS, lacks(1))),
        (
            "repeat(3..)",
            Range::from(3..),
            ("aa", backtracks_behind(2), lacks_one_behind(2)),
        ),
        ("repeat(3..=2)", Range::from(3..=2), ("aa", CUTS, CUTS)),
    ] {
        let letters: Repeat<TakeWhile<char, I, E>, I, I::Slice, (), E, Global> =
            winnow_repeat::combinator::repeat(alloc, range, letter('a'));
        ends::<I, (), E, _>(rt, name, letters, row);
    }
}

#[test]
fn repeat_on_cut_input(rt: HostRuntime) {
    letters::<&str, Modal>(&rt, rt.alloc());
    letters::<Partial<&str>, Modal>(&rt, rt.alloc());
    let first: Repeat<char, &str, char, (), Modal, Global> = winnow_repeat::combinator::repeat(
        rt.alloc(),
        0..,
        'a',
    );
    let like: Repeat<char, Partial<&str>, char, (), Modal, Global> =
        winnow_repeat::combinator::repeat(rt.alloc(), 0.., 'a');
    let both = (first, like);
    like_ends::<&str, Partial<&str>, (), Modal, _, _>(&rt, "repeat", "aab", both, Takes(2));
}
