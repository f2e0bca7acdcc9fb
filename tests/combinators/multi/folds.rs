//! Repetitions and elements with separators that are folded into a value.
use crate::common::letter;
use std::alloc::Allocator;
use stream_errors::empty::EmptyError;
use stream_errors::input_error::InputError;
use stream_sets::range::Range;
use streams::needed::Needed;
use streams::partial::Partial;
use test_support::outcomes::Kind::{Backtrack, Cut, Incomplete, Memory};
use test_support::outcomes::{Kind, Outcome, outcome_of};
use test_support::refusing::refused_in_turn;
use test_support::rows::{Modal, outcome_at, same};
use test_support::wanting::{TooLarge, Wanting};
use winnow_ascii::ascii::impls::Digit1;
use winnow_comb::combinator::impls::Empty;
use winnow_core::combinator::impls::ParseTo;
use winnow_core::parser::{Func, Parser};
use winnow_repeat::combinator::repeat;
use winnow_separated::combinator::{separated_foldl1, separated_foldr1};
use winnow_token::token::impls::Any;

/// A decimal digit, as its number.
fn digit(input: &mut &'static str) -> Result<u32, Modal> {
    Any.verify_map(|c: char| c.to_digit(10)).parse_next(input)
}

/// The digits of a text, folded into the number that they stand for, by each form of ranges.
#[test]
fn fold(rt: HostRuntime) {
    for (name, range, text, want, rest) in [
        ("fold(0..)", Range::from(0..), "12a", Ok(12), "a"),
        ("fold(0..)", Range::from(0..), "a", Ok(0), "a"),
        ("fold(1..)", Range::from(1..), "12a", Ok(12), "a"),
        ("fold(1..)", Range::from(1..), "a", Err(Backtrack), "a"),
        ("fold(2)", Range::from(2), "123", Ok(12), "3"),
        ("fold(2)", Range::from(2), "1a", Err(Backtrack), "a"),
        ("fold(3..)", Range::from(3..), "12a", Err(Backtrack), "a"),
        ("fold(..=2)", Range::from(..=2), "123", Ok(12), "3"),
        ("fold(0)", Range::from(0), "1", Ok(0), "1"),
        ("fold(2..=1)", Range::from(2..=1), "12", Err(Cut), "12"),
    ] {
        let mut parser = repeat(rt.alloc(), range, Func(digit)).fold(
            || 0,
            |all: u32, n: u32| all * 10 + n,
        );
        let got = outcome_at::<&str, u32, Modal, _>(&mut parser, text);
        same(&rt, name, text, got, (want, rest));
    }
}

/// The digits of a text, folded into a number below 256: if the closure rejects an output, the
/// input is left before that item.
#[test]
fn verify_fold(rt: HostRuntime) {
    for (name, range, text, want, rest) in [
        (
            "verify_fold(0..)",
            Range::from(0..),
            "256x",
            Err(Backtrack),
            "6x",
        ),
        (
            "verify_fold(1..)",
            Range::from(1..),
            "256x",
            Err(Backtrack),
            "6x",
        ),
        ("verify_fold(0..)", Range::from(0..), "255x", Ok(255), "x"),
        ("verify_fold(..=2)", Range::from(..=2), "256", Ok(25), "6"),
        ("verify_fold(3)", Range::from(3), "25x", Err(Backtrack), "x"),
        (
            "verify_fold(2..=1)",
            Range::from(2..=1),
            "25",
            Err(Cut),
            "25",
        ),
    ] {
        let mut parser = repeat(rt.alloc(), range, Func(digit)).verify_fold(
            || 0u8,
            |all: u8, n: u32| all.checked_mul(10)?.checked_add(u8::try_from(n).ok()?),
        );
        let got = outcome_at::<&str, u8, Modal, _>(&mut parser, text);
        same(&rt, name, text, got, (want, rest));
    }
}

/// A digit that is too great.
#[derive(Clone, Copy)]
struct TooGreat(u32);

/// The sum of the digits of a text, up to 8: if the closure fails, the input is left before that
/// item.
#[test]
fn try_fold(rt: HostRuntime) {
    for (name, range, text, want, rest) in [
        (
            "try_fold(0..)",
            Range::from(0..),
            "1293x",
            Err(Backtrack),
            "93x",
        ),
        ("try_fold(1..)", Range::from(1..), "9", Err(Backtrack), "9"),
        ("try_fold(0..)", Range::from(0..), "123x", Ok(6), "x"),
        ("try_fold(..=2)", Range::from(..=2), "129", Ok(3), "9"),
        (
            "try_fold(3..)",
            Range::from(3..),
            "12x",
            Err(Backtrack),
            "x",
        ),
        ("try_fold(2..=1)", Range::from(2..=1), "12", Err(Cut), "12"),
    ] {
        let mut parser = repeat(rt.alloc(), range, Func(digit)).try_fold(
            || 0u32,
            |all: u32, n: u32| if n > 8 { Err(TooGreat(n)) } else { Ok(all + n) },
        );
        let got = outcome_at::<&str, u32, Modal, _>(&mut parser, text);
        same(&rt, name, text, got, (want, rest));
    }
}

/// How often the initial closure of a fold was called by the end of the fold's second call, if the
/// first call is on text without an item. The range `1..` calls it after the first item; other
/// ranges call it before.
#[test]
fn fold_by_its_calls(rt: HostRuntime) {
    for (name, range, want) in [
        ("fold(1..)", Range::from(1..), 1u8),
        ("fold(0..)", Range::from(0..), 2),
        ("fold(2..)", Range::from(2..), 2),
        ("fold(1..=3)", Range::from(1..=3), 2),
    ] {
        let mut calls = 0u8;
        let mut parser = repeat(rt.alloc(), range, Func(digit)).fold(
            move || {
                calls += 1;
                calls
            },
            |made: u8, _: u32| made,
        );
        let _first = outcome_at::<&str, u8, Modal, _>(&mut parser, "a");
        let got = outcome_at::<&str, u8, Modal, _>(&mut parser, "12");
        same(&rt, name, "a, 12", got, (Ok(want), ""));
    }
}

/// `verify_fold` calls its initial closure before the first item also with the range `1..`.
#[test]
fn verify_fold_by_its_calls(rt: HostRuntime) {
    let mut calls = 0u8;
    let mut parser = repeat(rt.alloc(), 1.., Func(digit)).verify_fold(
        move || {
            calls += 1;
            calls
        },
        |made: u8, _: u32| Some(made),
    );
    let _first = outcome_at::<&str, u8, Modal, _>(&mut parser, "a");
    let got = outcome_at::<&str, u8, Modal, _>(&mut parser, "12");
    same(&rt, "verify_fold(1..)", "a, 12", got, (Ok(2), ""));
}

/// Items that consume nothing.
#[test]
fn fold_of_nothing(rt: HostRuntime) {
    for range in [Range::from(0..), Range::from(1..)] {
        let mut parser = repeat(rt.alloc(), range, Empty).fold(|| 0u8, |n: u8, _: ()| n);
        let got = outcome_at::<&str, u8, Modal, _>(&mut parser, "a");
        same(&rt, "fold of Empty", "a", got, (Err(Cut), "a"));
    }
}

/// On partial input a missing item is `Incomplete`.
#[test]
fn fold_on_cut_input(rt: HostRuntime) {
    let mut parser = repeat(rt.alloc(), 0.., Any).fold(|| 0u8, |n: u8, _: char| n);
    let got = outcome_of::<_, u8, Modal, _>(&mut parser, Partial::new("ab"));
    let want = (Err(Incomplete(Needed::new(1))), Partial::new(""));
    same(&rt, "fold(0..), cut", "ab", got, want);
}

/// Differences, nested to the left.
#[test]
fn separated_foldl1_of_differences(rt: HostRuntime) {
    for (text, want, rest) in [
        ("9-5-2", Ok(2), ""),
        ("9-5-2;", Ok(2), ";"),
        ("9", Ok(9), ""),
        ("9-5-", Ok(4), "-"),
        ("9--5", Ok(9), "--5"),
        ("-9", Err(Backtrack), "-9"),
        ("", Err(Backtrack), ""),
    ] {
        let mut parser = separated_foldl1(
            Func(digit),
            letter('-'),
            |left: u32, _: &str, right: u32| left - right,
        );
        let got = outcome_at::<&str, u32, Modal, _>(&mut parser, text);
        same(&rt, "separated_foldl1", text, got, (want, rest));
    }
}

/// Differences under plain errors: the results of the left fold and of the right fold, and the
/// rest, which starts with the last separator if no element follows it.
const PLAIN_DIFFERENCES: [(&str, Result<u32, Kind>, Result<u32, Kind>, &str); 5] = [
    ("9-5-", Ok(4), Ok(4), "-"),
    ("90-50-20", Ok(20), Ok(60), ""),
    ("90-50-20-;", Ok(20), Ok(60), "-;"),
    ("9--5", Ok(9), Ok(9), "--5"),
    ("-9", Err(Backtrack), Err(Backtrack), "-9"),
];

#[test]
fn separated_foldl1_under_plain_errors(rt: HostRuntime) {
    let number: ParseTo<Digit1, &str, &str, u32, EmptyError> = Digit1.parse_to();
    let mut parser = separated_foldl1(number, '-', |left: u32, _: char, right: u32| left - right);
    for (text, want, _, rest) in PLAIN_DIFFERENCES {
        let got = outcome_at::<&str, u32, EmptyError, _>(&mut parser, text);
        same(&rt, "separated_foldl1, plainly", text, got, (want, rest));
    }
}

#[test]
fn separated_foldr1_under_plain_errors(rt: HostRuntime) {
    let number: ParseTo<Digit1, &str, &str, u32, EmptyError> = Digit1.parse_to();
    let take_off = |left: u32, _: char, right: u32| left - right;
    let mut parser = separated_foldr1(rt.alloc(), number, '-', take_off);
    for (text, _, want, rest) in PLAIN_DIFFERENCES {
        let got = outcome_at::<&str, u32, EmptyError, _>(&mut parser, text);
        same(&rt, "separated_foldr1, plainly", text, got, (want, rest));
    }
}

/// Nothing between the elements.
#[test]
fn separated_foldl1_by_nothing(rt: HostRuntime) {
    let mut parser = separated_foldl1(Any, Empty, |left: char, _: (), _: char| left);
    let got = outcome_at::<&str, char, Modal, _>(&mut parser, "ab");
    same(&rt, "separated_foldl1 by Empty", "ab", got, (Err(Cut), "b"));
    // Under plain errors the assert error is a backtrack, and is returned unchanged.
    let mut parser = separated_foldl1(Any, Empty, |left: char, _: (), _: char| left);
    for (text, want, rest) in [
        ("a", Err(Backtrack), ""),
        ("ab", Err(Backtrack), "b"),
        ("", Err(Backtrack), ""),
    ] {
        let got = outcome_at::<&str, char, InputError<&str>, _>(&mut parser, text);
        same(&rt, "separated_foldl1 by Empty", text, got, (want, rest));
    }
}

/// The differences of a text, nested to the right.
fn to_the_right<A: Allocator + Copy>(alloc: A, text: &'static str) -> Outcome<u32, &'static str> {
    let mut parser = separated_foldr1(
        alloc,
        Func(digit),
        letter('-'),
        |left: u32, _: &str, right: u32| left - right,
    );
    outcome_at::<&str, u32, Modal, _>(&mut parser, text)
}

/// Differences, nested to the right.
#[test]
fn separated_foldr1_of_differences(rt: HostRuntime) {
    for (text, want, rest) in [
        ("9-5-2", Ok(6), ""),
        ("9-5-2;", Ok(6), ";"),
        ("9-7-4-1", Ok(5), ""),
        ("9", Ok(9), ""),
        ("9-5-", Ok(4), "-"),
        ("-9", Err(Backtrack), "-9"),
    ] {
        let got = to_the_right(rt.alloc(), text);
        same(&rt, "separated_foldr1", text, got, (want, rest));
    }
}

/// Nothing between the elements, and nothing at all.
#[test]
fn separated_foldr1_by_nothing(rt: HostRuntime) {
    let mut parser = separated_foldr1(rt.alloc(), Any, Empty, |left: char, _: (), _: char| left);
    let got = outcome_at::<&str, char, Modal, _>(&mut parser, "ab");
    same(&rt, "separated_foldr1 by Empty", "ab", got, (Ok('a'), ""));
    let mut parser = separated_foldr1(rt.alloc(), Empty, Empty, |_: (), _: (), _: ()| ());
    let got = outcome_at::<&str, (), Modal, _>(&mut parser, "ab");
    same(
        &rt,
        "separated_foldr1 of Empty",
        "ab",
        got,
        (Err(Cut), "ab"),
    );
    let mut parser = separated_foldr1(rt.alloc(), Empty, Empty, |_: (), _: (), _: ()| ());
    let got = outcome_at::<&str, (), InputError<&str>, _>(&mut parser, "ab");
    same(
        &rt,
        "separated_foldr1 of Empty",
        "ab",
        got,
        (Err(Backtrack), "ab"),
    );
}

/// The list of links cannot grow.
#[test]
fn separated_foldr1_without_memory(rt: HostRuntime) {
    refused_in_turn(
        &rt,
        "separated_foldr1",
        rt.alloc(),
        |heap| {
            let (answer, rest) = to_the_right(heap, "9-1-1-1-1-1-1-1-1-1;");
            (answer, rest.len())
        },
        (Ok(8), 1),
    );
}

/// A number, as a parser of digits reads it.
type Number = ParseTo<Digit1, &'static str, &'static str, u32, Modal>;

/// Numbers of any number of digits.
#[test]
fn separated_foldl1_of_numbers(rt: HostRuntime) {
    for (text, want, rest) in [
        ("9-5-2", Ok(2), ""),
        ("90-5-20", Ok(65), ""),
        ("1-", Ok(1), "-"),
        ("-1", Err(Backtrack), "-1"),
    ] {
        let number: Number = Digit1.parse_to();
        let difference = |left: u32, _: char, right: u32| left - right;
        let mut parser = separated_foldl1(number, '-', difference);
        let got = outcome_at::<&str, u32, Modal, _>(&mut parser, text);
        same(&rt, "separated_foldl1", text, got, (want, rest));
    }
    let number: Number = Digit1.parse_to();
    let mut parser = separated_foldl1(number, '+', |left: u32, _: char, right: u32| left + right);
    let got = outcome_at::<&str, u32, Modal, _>(&mut parser, "1+");
    same(&rt, "separated_foldl1, a sum", "1+", got, (Ok(1), "+"));
    let number: Number = Digit1.parse_to();
    let mut parser = separated_foldl1(number, Empty, |left: u32, _: (), right: u32| left + right);
    let (answer, _) = outcome_at::<&str, u32, Modal, _>(&mut parser, "1");
    same(&rt, "separated_foldl1, by Empty", "1", answer, Err(Cut));
}

/// Numbers of any number of digits.
#[test]
fn separated_foldr1_of_numbers(rt: HostRuntime) {
    for (text, want, rest) in [
        ("9-5-2", Ok(6), ""),
        ("90-50-20", Ok(60), ""),
        ("1-", Ok(1), "-"),
        ("-1", Err(Backtrack), "-1"),
    ] {
        let number: Number = Digit1.parse_to();
        let difference = |left: u32, _: char, right: u32| left - right;
        let mut parser = separated_foldr1(rt.alloc(), number, '-', difference);
        let got = outcome_at::<&str, u32, Modal, _>(&mut parser, text);
        same(&rt, "separated_foldr1", text, got, (want, rest));
    }
    let number: Number = Digit1.parse_to();
    let sum = |left: u32, _: (), right: u32| left + right;
    let mut parser = separated_foldr1(rt.alloc(), number, Empty, sum);
    let got = outcome_at::<&str, u32, Modal, _>(&mut parser, "1");
    same(&rt, "separated_foldr1, by Empty", "1", got, (Ok(1), ""));
}

/// The conversion of the closure's error fails to allocate: the input is still left before the
/// item.
#[test]
fn try_fold_without_memory(rt: HostRuntime) {
    for (text, want, rest) in [
        ("123x", Ok(6), "x"),
        ("1293x", Err(Memory), "93x"),
        ("9", Err(Memory), "9"),
    ] {
        let digit = Any.verify_map(|c: char| c.to_digit(10));
        let mut parser = repeat(rt.alloc(), 0.., digit).try_fold(
            || 0u32,
            |all: u32, n: u32| if n > 8 { Err(TooLarge) } else { Ok(all + n) },
        );
        let got = outcome_at::<&str, u32, Wanting, _>(&mut parser, text);
        same(&rt, "try_fold", text, got, (want, rest));
    }
}
