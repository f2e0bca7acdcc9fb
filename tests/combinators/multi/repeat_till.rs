//! Repetitions until a terminator.
use crate::common::{AtBytes, Bytes, Plain, letter};
use std::alloc::{Allocator, Global};
use std::process::Abort;
use stream_errors::parser_error::ParserError;
use stream_sets::range::Range;
use streams::partial::Partial;
use streams::stream::Stream;
use test_support::failing::{Failing, HARD};
use test_support::outcomes::Ending::Takes;
use test_support::outcomes::Kind::{self, Backtrack, Cut};
use test_support::outcomes::{CUTS, backtracks_behind, lacks_one_behind};
use test_support::refusing::refused_in_turn;
use test_support::rows::{Modal, ends, like_ends, outcome_at, same};
use test_support::texts::OfText;
use winnow_comb::combinator::impls::Empty;
use winnow_core::parser::Parser;
use winnow_repeat::combinator::impls::RepeatTill;
use winnow_token::token::impls::{Any, TakeWhile};

/// The items and what ended them, or the kind of the error, and the units left.
type Listed<O, D, A> = (Result<(Vec<O, A>, D), Kind>, usize);

/// One run of a repetition into a list.
fn listed<O, D, E, P, G, A>(
    alloc: A,
    range: Range,
    parser: P,
    terminator: G,
    text: &'static str,
) -> Listed<O, D, A>
where
    O: Drop,
    D: Drop,
    E: ParserError<Bytes>,
    P: Parser<Bytes, O, E> + Drop,
    G: Parser<Bytes, D, E> + Drop,
    A: Allocator + Copy,
{
    let mut parser: RepeatTill<P, G, Bytes, O, D, Vec<O, A>, E, A> =
        winnow_repeat::combinator::repeat_till(alloc, range, parser, terminator);
    let (answer, rest) = outcome_at::<Bytes, (Vec<O, A>, D), E, _>(&mut parser, text);
    (answer, rest.len())
}

/// The number of the items of such a run, in place of them.
fn counted<O: Drop, D: Drop, A: Allocator>(run: Listed<O, D, A>) -> (Result<usize, Kind>, usize) {
    let (answer, left) = run;
    match answer {
        Ok((list, _end)) => (Ok(list.len()), left),
        Err(kind) => (Err(kind), left),
    }
}

/// Checks the list of bytes, the output of the terminator, and the remaining bytes.
fn same_list<D: PartialEq + std::fmt::Debug + Drop>(
    rt: &impl Abort,
    name: &str,
    text: &str,
    run: Listed<u8, D, Global>,
    want: (Result<(&str, D), Kind>, usize),
) {
    let (answer, left) = run;
    let (want, want_left) = want;
    match (answer, want) {
        (Ok((list, end)), Ok((items, want_end))) => {
            same(rt, name, text, list.as_slice(), items.as_bytes());
            same(rt, name, text, end, want_end);
        }
        (Err(kind), Err(want)) => same(rt, name, text, kind, want),
        _ => assert!(rt; false, "{name} at {text:?} fails, or should have failed"),
    }
    same(rt, name, text, left, want_left);
}

/// Bytes and a semicolon, by each form of ranges.
#[test]
fn repeat_till(rt: HostRuntime) {
    for (name, range, text, want, left) in [
        ("repeat_till(0..)", Range::from(0..), "ab;c", Ok("ab"), 1),
        ("repeat_till(0..)", Range::from(0..), ";c", Ok(""), 1),
        (
            "repeat_till(0..)",
            Range::from(0..),
            "ab",
            Err(Backtrack),
            0,
        ),
        ("repeat_till(0..)", Range::from(0..), "", Err(Backtrack), 0),
        ("repeat_till(1..)", Range::from(1..), "ab;c", Ok("ab"), 1),
        ("repeat_till(1..)", Range::from(1..), ";;c", Ok(";"), 1),
        ("repeat_till(1..)", Range::from(1..), "", Err(Backtrack), 0),
        ("repeat_till(2..)", Range::from(2..), ";;;x", Ok(";;"), 1),
        ("repeat_till(2..)", Range::from(2..), "a;b;c", Ok("a;b"), 1),
        ("repeat_till(2..)", Range::from(2..), ";", Err(Backtrack), 0),
        ("repeat_till(0..=1)", Range::from(0..=1), ";b", Ok(""), 1),
        ("repeat_till(0..=1)", Range::from(0..=1), "a;b", Ok("a"), 1),
        (
            "repeat_till(0..=1)",
            Range::from(0..=1),
            "ab;",
            Err(Backtrack),
            2,
        ),
        (
            "repeat_till(1..=3)",
            Range::from(1..=3),
            "abc;d",
            Ok("abc"),
            1,
        ),
        (
            "repeat_till(1..=3)",
            Range::from(1..=3),
            "abcd;",
            Err(Backtrack),
            2,
        ),
        ("repeat_till(2)", Range::from(2), ";;;", Ok(";;"), 0),
        ("repeat_till(2)", Range::from(2), "abc;", Err(Backtrack), 2),
        ("repeat_till(0)", Range::from(0), ";a", Ok(""), 1),
        ("repeat_till(0)", Range::from(0), "a;", Err(Backtrack), 2),
        (
            "repeat_till(3..=2)",
            Range::from(3..=2),
            "abc;",
            Err(Cut),
            4,
        ),
    ] {
        let want = match want {
            Ok(items) => Ok((items, b';')),
            Err(kind) => Err(kind),
        };
        let run = listed::<u8, u8, AtBytes, _, _, _>(rt.alloc(), range, Any, b';', text);
        same_list(&rt, name, text, run, (want, left));
    }
}

/// A terminator that consumes before it backtracks: the input is back before it, but not where the
/// greatest count is reached.
#[test]
fn repeat_till_a_pair(rt: HostRuntime) {
    for (name, range, text, want, left) in [
        ("repeat_till(0..)", Range::from(0..), "a-b-;c", Ok("a-b"), 1),
        ("repeat_till(1..)", Range::from(1..), "--;c", Ok("-"), 1),
        ("repeat_till(0..=2)", Range::from(0..=2), "--;c", Ok("-"), 1),
        (
            "repeat_till(0..=1)",
            Range::from(0..=1),
            "a-b",
            Err(Backtrack),
            1,
        ),
        ("repeat_till(1)", Range::from(1), "a-b", Err(Backtrack), 1),
    ] {
        let want = match want {
            Ok(items) => Ok((items, (b'-', b';'))),
            Err(kind) => Err(kind),
        };
        let pair = (b'-', b';');
        let run = listed::<u8, (u8, u8), AtBytes, _, _, _>(rt.alloc(), range, Any, pair, text);
        same_list(&rt, name, text, run, (want, left));
    }
}

/// Only the least items may consume nothing.
#[test]
fn repeat_till_of_nothing(rt: HostRuntime) {
    for (name, range, text, want, left) in [
        (
            "repeat_till(0.., Empty)",
            Range::from(0..),
            "a",
            Err(Cut),
            1,
        ),
        ("repeat_till(0.., Empty)", Range::from(0..), ";", Ok(0), 0),
        ("repeat_till(2.., Empty)", Range::from(2..), ";", Ok(2), 0),
        (
            "repeat_till(2.., Empty)",
            Range::from(2..),
            "a",
            Err(Cut),
            1,
        ),
        (
            "repeat_till(2..=3, Empty)",
            Range::from(2..=3),
            "a",
            Err(Cut),
            1,
        ),
        (
            "repeat_till(2, Empty)",
            Range::from(2),
            "a",
            Err(Backtrack),
            1,
        ),
    ] {
        let run = listed::<(), u8, AtBytes, _, _, _>(rt.alloc(), range, Empty, b';', text);
        same(&rt, name, text, counted(run), (want, left));
    }
}

/// Failures of each kind, of the items and of the terminator.
#[test]
fn repeat_till_a_failure(rt: HostRuntime) {
    for kind in HARD {
        for (name, range, left) in [
            ("repeat_till(0.., a failure)", Range::from(0..), 2),
            ("repeat_till(2, a failure)", Range::from(2), 0),
            ("repeat_till(0, a failure)", Range::from(0), 2),
        ] {
            let end = Failing(kind);
            let run = listed::<u8, u8, AtBytes, _, _, _>(rt.alloc(), range, b'a', end, "aaa");
            same(&rt, name, "aaa", counted(run), (Err(kind), left));
        }
    }
    for kind in [Backtrack, HARD[0], HARD[1], HARD[2]] {
        for (name, range, text) in [
            ("repeat_till(0.., of a failure)", Range::from(0..), "ab"),
            ("repeat_till(1.., of a failure)", Range::from(1..), ";b"),
        ] {
            let item = Failing(kind);
            let run = listed::<u8, u8, AtBytes, _, _, _>(rt.alloc(), range, item, b';', text);
            same(&rt, name, text, counted(run), (Err(kind), 1));
        }
    }
}

/// Under an error that is plain an assert error backtracks, and nothing need be kept.
#[test]
fn repeat_till_plainly(rt: HostRuntime) {
    let alloc = rt.alloc();
    let run = listed::<u8, u8, Plain, _, _, _>(alloc, Range::from(3..=2), b'a', b';', "a;");
    same(
        &rt,
        "repeat_till(3..=2)",
        "a;",
        counted(run),
        (Err(Backtrack), 2),
    );
    let run = listed::<(), u8, Plain, _, _, _>(alloc, Range::from(0..), Empty, b';', "a");
    same(
        &rt,
        "repeat_till(0.., Empty)",
        "a",
        counted(run),
        (Err(Backtrack), 1),
    );
    let mut kept: RepeatTill<u8, u8, Bytes, u8, u8, (), Plain, Global> =
        winnow_repeat::combinator::repeat_till(alloc, 0.., b'a', b';');
    let got = outcome_at::<Bytes, ((), u8), Plain, _>(&mut kept, "aa;b");
    same(
        &rt,
        "repeat_till into ()",
        "aa;b",
        got,
        (Ok(((), b';')), b"b".as_slice()),
    );
}

/// The list fails to grow, within the least number of items and after it.
#[test]
fn repeat_till_without_memory(rt: HostRuntime) {
    let text = "aaaaaaaaaaaaaaaa;b";
    for (name, range) in [
        ("repeat_till(0..)", Range::from(0..)),
        ("repeat_till(3..=20)", Range::from(3..=20)),
        ("repeat_till(16)", Range::from(16)),
    ] {
        refused_in_turn(
            &rt,
            name,
            rt.alloc(),
            |heap| counted(listed::<u8, u8, Plain, _, _, _>(heap, range, b'a', b';', text)),
            (Ok(16), 1),
        );
    }
}

/// Letters by ranges, on complete and on partial input, accumulated into `()`.
fn letters<I: OfText + Stream<Token = char>, E: ParserError<I>>(rt: &impl Abort, alloc: Global) {
    let back = backtracks_behind;
    for (name, range, row) in [
        (
            "repeat_till(0..)",
            Range::from(0..),
            ("aa;", Takes(3), Takes(3)),
        ),
        (
            "repeat_till(0..)",
            Range::from(0..),
            ("aab;", back(2), back(2)),
        ),
        (
            "repeat_till(0..)",
            Range::from(0..),
            ("aa", back(2), lacks_one_behind(2)),
        ),
        (
            "repeat_till(2..)",
            Range::from(2..),
            ("aa;", Takes(3), Takes(3)),
        ),
        (
            "repeat_till(2..)",
            Range::from(2..),
            ("a", back(1), lacks_one_behind(1)),
        ),
        (
            "repeat_till(2..)",
            Range::from(2..),
            ("a;", back(1), back(1)),
        ),
        ("repeat_till(1)", Range::from(1), ("aa;", back(1), back(1))),
        (
            "repeat_till(1)",
            Range::from(1),
            ("a", back(1), lacks_one_behind(1)),
        ),
        (
            "repeat_till(3..=2)",
            Range::from(3..=2),
            ("aa;", CUTS, CUTS),
        ),
    ] {
        let letters: RepeatTill<
            TakeWhile<char, I, E>,
            TakeWhile<char, I, E>,
            I,
            I::Slice,
            I::Slice,
            (),
            E,
            Global,
        > = winnow_repeat::combinator::repeat_till(alloc, range, letter('a'), letter(';'));
        ends::<I, ((), I::Slice), E, _>(rt, name, letters, row);
    }
}

#[test]
fn repeat_till_on_cut_input(rt: HostRuntime) {
    letters::<&str, Modal>(&rt, rt.alloc());
    letters::<Partial<&str>, Modal>(&rt, rt.alloc());
    let first: RepeatTill<char, char, &str, char, char, (), Modal, Global> =
        winnow_repeat::combinator::repeat_till(rt.alloc(), 0.., 'a', 'b');
    let like: RepeatTill<char, char, Partial<&str>, char, char, (), Modal, Global> =
        winnow_repeat::combinator::repeat_till(rt.alloc(), 0.., 'a', 'b');
    let (name, both) = ("repeat_till", (first, like));
    like_ends::<&str, Partial<&str>, ((), char), Modal, _, _>(&rt, name, "aab", both, Takes(3));
}
