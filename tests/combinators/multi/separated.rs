//! Elements with separators between them.
use super::{counted, same_items};
use crate::common::{AtBytes, Bytes, Plain, letter};
use std::alloc::{Allocator, Global};
use std::process::Abort;
use stream_errors::parser_error::ParserError;
use stream_sets::range::Range;
use streams::partial::Partial;
use streams::stream::Stream;
use test_support::outcomes::Ending::Takes;
use test_support::outcomes::Kind::{self, Backtrack, Cut};
use test_support::outcomes::{BACKTRACKS, CUTS, backtracks_behind, lacks, lacks_one_behind};
use test_support::refusing::refused_in_turn;
use test_support::rows::{Modal, ends, outcome_at, same};
use test_support::texts::OfText;
use winnow_ascii::ascii::impls::Digit1;
use winnow_comb::combinator;
use winnow_comb::combinator::impls::{Empty, Opt};
use winnow_core::combinator::impls::ParseTo;
use winnow_core::parser::Parser;
use winnow_separated::combinator::impls::Separated;
use winnow_separated::combinator::separated_foldl1;
use winnow_token::token::impls::TakeWhile;

/// One run of a separation into a list, and the units left.
fn listed<O, D, E, P, S, A>(
    alloc: A,
    range: Range,
    parser: P,
    separator: S,
    text: &'static str,
) -> (Result<Vec<O, A>, Kind>, usize)
where
    O: Drop,
    D: Drop,
    E: ParserError<Bytes>,
    P: Parser<Bytes, O, E> + Drop,
    S: Parser<Bytes, D, E> + Drop,
    A: Allocator + Copy,
{
    let mut parser: Separated<P, S, Bytes, O, D, Vec<O, A>, E, A> =
        winnow_separated::combinator::separated(alloc, range, parser, separator);
    let (answer, rest) = outcome_at::<Bytes, Vec<O, A>, E, _>(&mut parser, text);
    (answer, rest.len())
}

/// Digits and commas by each form of ranges.
#[test]
fn separated(rt: HostRuntime) {
    let alloc = rt.alloc();
    for (name, range, text, want, left) in [
        ("separated(0..)", Range::from(0..), "1,2,", Ok(2), 1),
        ("separated(0..)", Range::from(0..), "a", Ok(0), 1),
        ("separated(1..)", Range::from(1..), "1,2;", Ok(2), 1),
        ("separated(1..)", Range::from(1..), "a", Err(Backtrack), 1),
        ("separated(2)", Range::from(2), "1,2,3", Ok(2), 2),
        ("separated(2)", Range::from(2), "1,a", Err(Backtrack), 1),
        (
            "separated(3..)",
            Range::from(3..),
            "1,2,",
            Err(Backtrack),
            0,
        ),
        ("separated(3..)", Range::from(3..), "1;2", Err(Backtrack), 2),
        ("separated(0)", Range::from(0), "1,2", Ok(0), 3),
        ("separated(..=2)", Range::from(..=2), "1,2,3", Ok(2), 2),
        ("separated(3..=2)", Range::from(3..=2), "1,2,3", Err(Cut), 5),
    ] {
        let run = listed::<Bytes, u8, AtBytes, _, _, _>(alloc, range, Digit1, b',', text);
        same(&rt, name, text, counted(run), (want, left));
    }
    let any = Range::from(0..);
    let digits = combinator::opt(Digit1);
    let run = listed::<Option<Bytes>, u8, AtBytes, _, _, _>(alloc, any, digits, b',', ",,");
    same(&rt, "separated(0.., opt)", ",,", counted(run), (Ok(3), 0));
    let run = listed::<Bytes, (), AtBytes, _, _, _>(alloc, any, Digit1, Empty, "1");
    same(
        &rt,
        "separated(0.., digit1, Empty)",
        "1",
        counted(run),
        (Err(Cut), 0),
    );
}

/// Under plain errors the assert error is a backtrack, but it does not end the list.
#[test]
fn separated_under_plain_errors(rt: HostRuntime) {
    let alloc = rt.alloc();
    for (name, range, text, want, left) in [
        ("separated(0..)", Range::from(0..), "1,2,", Ok(2), 1),
        ("separated(0..)", Range::from(0..), "a", Ok(0), 1),
        ("separated(1..)", Range::from(1..), "1,2;", Ok(2), 1),
        ("separated(1..)", Range::from(1..), "a", Err(Backtrack), 1),
        ("separated(2)", Range::from(2), "1,2,3", Ok(2), 2),
        ("separated(2)", Range::from(2), "1,a", Err(Backtrack), 1),
        (
            "separated(3..=2)",
            Range::from(3..=2),
            "1,2,3",
            Err(Backtrack),
            5,
        ),
    ] {
        let run = listed::<Bytes, u8, Plain, _, _, _>(alloc, range, Digit1, b',', text);
        same(&rt, name, text, counted(run), (want, left));
    }
    // A separator that consumes nothing.
    for (name, range, text, want, left) in [
        ("separated(0.., Empty)", Range::from(0..), "1", Err(Backtrack), 0),
        ("separated(0.., Empty)", Range::from(0..), "1;", Err(Backtrack), 1),
        ("separated(0.., Empty)", Range::from(0..), ";", Ok(0), 1),
        ("separated(1.., Empty)", Range::from(1..), "12", Err(Backtrack), 0),
        ("separated(1, Empty)", Range::from(1), "1;", Ok(1), 1),
    ] {
        let run = listed::<Bytes, (), Plain, _, _, _>(alloc, range, Digit1, Empty, text);
        same(&rt, name, text, counted(run), (want, left));
    }
}

#[test]
fn separated_without_memory(rt: HostRuntime) {
    let text = "a,a,a,a,a,a,a,a,a,a;";
    let any = Range::from(0..);
    refused_in_turn(
        &rt,
        "separated",
        rt.alloc(),
        |heap| counted(listed::<u8, u8, Plain, _, _, _>(heap, any, b'a', b',', text)),
        (Ok(10), 1),
    );
}

/// Letters by ranges, on complete and on partial input, accumulated into `()`.
fn letters<I: OfText + Stream<Token = char>, E: ParserError<I>>(rt: &impl Abort, alloc: Global) {
    for (name, range, row) in [
        (
            "separated(0..)",
            Range::from(0..),
            ("a,a;", Takes(3), Takes(3)),
        ),
        (
            "separated(0..)",
            Range::from(0..),
            ("a,;", Takes(1), Takes(1)),
        ),
        (
            "separated(0..)",
            Range::from(0..),
            ("a,", Takes(1), lacks_one_behind(2)),
        ),
        (
            "separated(0..)",
            Range::from(0..),
            ("a", Takes(1), lacks_one_behind(1)),
        ),
        (
            "separated(1..)",
            Range::from(1..),
            ("", BACKTRACKS, lacks(1)),
        ),
        ("separated(2)", Range::from(2), ("a,a", Takes(3), Takes(3))),
        (
            "separated(2)",
            Range::from(2),
            ("a,;", backtracks_behind(2), backtracks_behind(2)),
        ),
        ("separated(3..=2)", Range::from(3..=2), ("a,a", CUTS, CUTS)),
    ] {
        let letters: Separated<
            TakeWhile<char, I, E>,
            TakeWhile<char, I, E>,
            I,
            I::Slice,
            I::Slice,
            (),
            E,
            Global,
        > = winnow_separated::combinator::separated(alloc, range, letter('a'), letter(','));
        ends::<I, (), E, _>(rt, name, letters, row);
    }
}

#[test]
fn separated_on_cut_input(rt: HostRuntime) {
    letters::<&str, Modal>(&rt, rt.alloc());
    letters::<Partial<&str>, Modal>(&rt, rt.alloc());
}

/// The elements themselves.
#[test]
fn separated_into_a_list(rt: HostRuntime) {
    let two = ["1", "2"];
    for (name, range, text, want, rest) in [
        (
            "separated(0..)",
            Range::from(0..),
            "1,2,",
            Ok(two.as_slice()),
            ",",
        ),
        (
            "separated(2)",
            Range::from(2),
            "1,2,3",
            Ok(two.as_slice()),
            ",3",
        ),
        ("separated(2)", Range::from(2), "1,a", Err(Backtrack), "a"),
        (
            "separated(3..)",
            Range::from(3..),
            "1,2,",
            Err(Backtrack),
            "",
        ),
    ] {
        let mut parser: Separated<Digit1, char, &str, &str, char, Vec<&str>, Modal, Global> =
            winnow_separated::combinator::separated(rt.alloc(), range, Digit1, ',');
        let (answer, left) = outcome_at::<&str, Vec<&str>, Modal, _>(&mut parser, text);
        same_items(&rt, name, text, answer, want);
        same(&rt, name, text, left, rest);
    }
}

/// Elements that are `None`.
#[test]
fn separated_of_options(rt: HostRuntime) {
    type Optional = Opt<Digit1, &'static str, &'static str, Modal>;
    type Listed = Vec<Option<&'static str>>;
    let digits: Optional = combinator::opt(Digit1);
    let mut parser: Separated<Optional, char, &str, Option<&str>, char, Listed, Modal, Global> =
        winnow_separated::combinator::separated(rt.alloc(), 0.., digits, ',');
    let (answer, left) = outcome_at::<&str, Listed, Modal, _>(&mut parser, ",,");
    same_items(
        &rt,
        "separated(0.., opt)",
        ",,",
        answer,
        Ok(&[None, None, None]),
    );
    same(&rt, "separated(0.., opt)", ",,", left, "");
}

/// Sums of numbers: a plus without a number after it remains in the input.
#[test]
fn separated_foldl1_of_sums(rt: HostRuntime) {
    let number: ParseTo<Digit1, &str, &str, u32, Modal> = Digit1.parse_to();
    let mut parser = separated_foldl1(number, '+', |left: u32, _: char, right: u32| left + right);
    for (text, want, rest) in [
        ("12+", Ok(12), "+"),
        ("12+345", Ok(357), ""),
        ("12+345+;", Ok(357), "+;"),
        ("+12", Err(Backtrack), "+12"),
    ] {
        let got = outcome_at::<&str, u32, Modal, _>(&mut parser, text);
        same(&rt, "separated_foldl1", text, got, (want, rest));
    }
}
