//! Children whose state decides what they do.
use crate::common::Act::{Fail, Stay, Take, TakeAndFail};
use crate::common::{Act, AtBytes, Bytes, acting, counting};
use std::alloc::Global;
use std::cell::Cell;
use std::process::Abort;
use stream_errors::parser_error::ParserError;
use stream_sets::range::Range;
use streams::needed::Needed;
use streams::partial::Partial;
use test_support::outcomes::Kind::{self, Backtrack, Cut, Incomplete, Memory};
use test_support::outcomes::outcome_of;
use test_support::rows::{Modal, outcome_at, same};
use winnow_comb::combinator::impls::Opt;
use winnow_comb::combinator::{alt, not, opt, peek};
use winnow_core::parser::{Func, Parser};
use winnow_repeat::combinator::impls::Repeat;
use winnow_repeat::combinator::repeat;
use winnow_token::token::impls::Any;

/// A closure that counts its calls, before a token: the count continues from call to call, also
/// after `Incomplete`.
#[test]
fn a_count_goes_on_behind_an_incomplete_run(rt: HostRuntime) {
    for (name, rows) in [
        (
            "one parser",
            [("a", Err(Incomplete(Needed::new(1)))), ("ab", Ok((2, 'b')))].as_slice(),
        ),
        ("a fresh one", [("ab", Ok((1, 'b')))].as_slice()),
    ] {
        let mut calls = 0u8;
        let counts = Any.map(move |_: char| {
            calls += 1;
            calls
        });
        let mut both = (counts, Any);
        for (text, want) in rows {
            let input = Partial::new(*text);
            let (answer, rest) = outcome_of::<_, (u8, char), Modal, _>(&mut both, input);
            same(&rt, name, text, answer, *want);
            same(&rt, name, text, rest, Partial::new(""));
        }
    }
}

/// A function that takes a token, but backtracks in its second call alone, in a repetition.
#[test]
fn a_second_call_that_backtracks(rt: HostRuntime) {
    let mut calls = 0u8;
    let all_but_second = Func(move |input: &mut &str| {
        calls += 1;
        if calls == 2 {
            return Err(Modal::from_input(input));
        }
        Any.parse_next(input)
    });
    let mut all: Repeat<_, &str, char, Vec<char>, Modal, Global> = repeat(
        rt.alloc(),
        0..,
        all_but_second,
    );
    let (answer, rest) = outcome_at::<&str, Vec<char>, Modal, _>(&mut all, "ab");
    match answer {
        Ok(items) => same(&rt, "repeat", "ab", items.as_slice(), ['a'].as_slice()),
        Err(kind) => assert!(rt; false, "repeat at \"ab\" is {kind:?}"),
    }
    same(&rt, "repeat", "ab", rest, "b");
}

/// Checks a repetition of a child with a plan: the number of items or the error, the number of
/// remaining bytes, and how often the child is called.
fn repeats(
    rt: &impl Abort,
    alloc: Global,
    range: Range,
    plan: &[Act],
    (want, left, runs): (Result<usize, Kind>, usize, usize),
) {
    let number = Cell::new(0);
    let mut all: Repeat<_, Bytes, usize, usize, AtBytes, Global> = repeat(
        alloc,
        range,
        counting(acting(plan), &number),
    );
    let (answer, rest) = outcome_at::<Bytes, usize, AtBytes, _>(&mut all, "abcd");
    let got = (answer, rest.len(), number.get());
    same(rt, "repeat of a plan", "abcd", got, (want, left, runs));
}

#[test]
fn repetitions_of_plans(rt: HostRuntime) {
    let any = Range::from(0..);
    let unknown = Incomplete(Needed::Unknown);
    let back = Fail(Backtrack);
    for (range, plan, want) in [
        (any, [Take, Take, back], (Ok(2), 2, 3)),
        (any, [Take, TakeAndFail(Backtrack), Take], (Ok(1), 3, 2)),
        (any, [Take, TakeAndFail(Cut), Take], (Err(Cut), 2, 2)),
        (any, [Take, TakeAndFail(Memory), Take], (Err(Memory), 2, 2)),
        (any, [Take, Fail(unknown), Take], (Err(unknown), 3, 2)),
        (any, [Take, Stay, Take], (Err(Cut), 3, 2)),
        (Range::from(1..), [Stay, Take, Take], (Ok(3), 2, 4)),
        (Range::from(1..), [Stay, Stay, Take], (Err(Cut), 4, 2)),
        (Range::from(2), [Take, Take, Take], (Ok(2), 2, 2)),
        (
            Range::from(2..),
            [Take, TakeAndFail(Backtrack), back],
            (Err(Backtrack), 2, 2),
        ),
        (Range::from(0), [Take, back, back], (Ok(0), 4, 0)),
        (Range::from(2..=1), [Take, back, back], (Err(Cut), 4, 0)),
    ] {
        repeats(&rt, rt.alloc(), range, plan.as_slice(), want);
    }
}

/// The results of `alt` over two plans, the rest, and how often each is called: the second starts
/// where the first did, and runs only if the first backtracks.
#[test]
fn choices_of_plans(rt: HostRuntime) {
    for (first, want, left, runs) in [
        (Take, Ok(0), 1, (1, 0)),
        (Stay, Ok(0), 2, (1, 0)),
        (TakeAndFail(Backtrack), Ok(0), 1, (1, 1)),
        (Fail(Backtrack), Ok(0), 1, (1, 1)),
        (TakeAndFail(Cut), Err(Cut), 1, (1, 0)),
        (TakeAndFail(Memory), Err(Memory), 1, (1, 0)),
        (Fail(Memory), Err(Memory), 2, (1, 0)),
        (
            TakeAndFail(Incomplete(Needed::new(7))),
            Err(Incomplete(Needed::new(7))),
            1,
            (1, 0),
        ),
    ] {
        let (ran, also) = (Cell::new(0), Cell::new(0));
        let (first, second) = (acting(&[first]), acting(&[Take]));
        let mut either = alt((counting(first, &ran), counting(second, &also)));
        let (answer, rest) = outcome_at::<Bytes, usize, AtBytes, _>(&mut either, "ab");
        let got = (answer, rest.len(), (ran.get(), also.get()));
        same(&rt, "alt of plans", "ab", got, (want, left, runs));
    }
}

/// A child that takes a token and fails: lookahead and options reset the input as they document it.
#[test]
fn looks_ahead_of_plans(rt: HostRuntime) {
    for (act, want, left) in [
        (TakeAndFail(Backtrack), Err(Backtrack), 2),
        (TakeAndFail(Memory), Err(Memory), 2),
        (Take, Ok(0), 2),
    ] {
        let mut parser = peek(acting(&[act]));
        let (answer, rest) = outcome_at::<Bytes, usize, AtBytes, _>(&mut parser, "ab");
        same(&rt, "peek", "ab", (answer, rest.len()), (want, left));
    }
    for (act, want, left) in [
        (TakeAndFail(Backtrack), Ok(()), 2),
        (TakeAndFail(Memory), Err(Memory), 2),
        (Take, Err(Backtrack), 2),
    ] {
        let mut parser = not(acting(&[act]));
        let (answer, rest) = outcome_at::<Bytes, (), AtBytes, _>(&mut parser, "ab");
        same(&rt, "not", "ab", (answer, rest.len()), (want, left));
    }
    for (act, want, left) in [
        (TakeAndFail(Backtrack), Ok(None), 2),
        (TakeAndFail(Memory), Err(Memory), 1),
        (TakeAndFail(Cut), Err(Cut), 1),
        (Take, Ok(Some(0)), 1),
    ] {
        let mut parser: Opt<_, Bytes, usize, AtBytes> = opt(acting(&[act]));
        let (answer, rest) = outcome_at::<Bytes, Option<usize>, AtBytes, _>(&mut parser, "ab");
        same(&rt, "opt", "ab", (answer, rest.len()), (want, left));
    }
}
