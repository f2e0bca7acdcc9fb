//! `parse_cut` on every prefix of texts, with expected results by the grammars in words.
use crate::settling::{Bytes, Lines, Text};
use std::alloc::Global;
use std::fmt::Debug;
use std::ops::Range as Places;
use std::process::Abort;
use std::test::Fail;
use stream_searches::compare::Compare;
use stream_sets::as_bstr::{AsBStr, SlicesAsBytes};
use stream_sets::as_char::AsChar;
use streams::locating::LocatingSlice;
use streams::stream::Location;
use test_support::outcomes::Kind::{self, Backtrack, Cut, Incomplete};
use test_support::outcomes::{answer_of, outcome_of};
use test_support::rows::Modal;
use test_support::texts::{OfText, completed};
use winnow_ascii::ascii::impls::{Alpha1, Digit1};
use winnow_comb::combinator::impls::{CutErr, Preceded, Terminated};
use winnow_comb::combinator::{alt, cut_err, preceded, terminated};
use winnow_core::combinator::impls::{Map, Span};
use winnow_core::parser::Parser;
use winnow_numbers::ascii::impls::DecUint;
use winnow_repeat::combinator::impls::Repeat;
use winnow_repeat::combinator::repeat;
use winnow_separated::combinator::impls::Separated;
use winnow_separated::combinator::separated;

/// A call: the least number of tokens of the text for which its result is final, the result, and
/// the number of tokens that it and the calls before it consume.
type Call<O> = (usize, Result<O, Kind>, usize);

/// Calls a new parser of `make` repeatedly on each prefix of `text`. On the prefix as partial input
/// each call by `parse_cut` must be `Incomplete` if its result is not final, and then the last one.
/// Each other call must have its result, there and on complete input.
fn calls<I, O, P, F>(rt: &impl Abort, make: F, text: &'static str, wants: &[Call<O>])
where
    I: OfText,
    O: PartialEq + Debug + Drop,
    P: Parser<I, O, Modal> + Drop,
    F: Fn() -> P,
{
    for count in 0..=text.len() {
        let mut parser = make();
        let mut input = I::of_beginning(text, count);
        let units = input.eof_offset();
        let mut again = make();
        let mut whole = completed(I::of_beginning(text, count));
        for (from, want, taken) in wants {
            let got = answer_of::<I, O, Modal>(parser.parse_cut(&mut input));
            if count < *from {
                let asks = matches!(got, Err(Incomplete(_)));
                assert!(rt; asks, "the first {count} tokens of {text:?}: {got:?}");
                break;
            }
            assert!(rt; got == *want, "the first {count} tokens of {text:?}, cut: {got:?}");
            let left = input.eof_offset();
            assert_eq!(rt; units - left, *taken, "the first {count} tokens of {text:?}, cut");
            let (got, rest) = outcome_of::<I, O, Modal, P>(&mut again, whole);
            assert!(rt; got == *want, "the first {count} tokens of {text:?}: {got:?}");
            let left = rest.eof_offset();
            assert_eq!(rt; units - left, *taken, "the first {count} tokens of {text:?}");
            whole = rest;
        }
    }
}

/// A word and a comma. The closure numbers the words that it is called with, from 1 on, also one
/// that no comma follows.
fn numbered<I>(rt: &impl Abort)
where
    I: Lines + Compare<char>,
    I::Token: AsChar + Copy,
    I::Slice: PartialEq + Debug + Copy,
{
    let make = || {
        let mut number = 0u8;
        let word: Map<Alpha1, _, I, I::Slice, (u8, I::Slice), Modal> = Alpha1.map(
            move |word: I::Slice| {
                number = number.wrapping_add(1);
                (number, word)
            },
        );
        let parser: Terminated<_, char, I, (u8, I::Slice), char, Modal> = terminated(word, ',');
        parser
    };
    let wants = [
        (3, Ok((1, I::slice_of_text("ab"))), 3),
        (5, Ok((2, I::slice_of_text("c"))), 5),
        (8, Err(Backtrack), 7),
    ];
    calls::<I, (u8, I::Slice), _, _>(rt, make, "ab,c,de;f,", &wants);
    let wants = [(2, Err(Backtrack), 1), (2, Err(Backtrack), 1)];
    calls::<I, (u8, I::Slice), _, _>(rt, make, "a;b,", &wants);
    calls::<I, (u8, I::Slice), _, _>(rt, make, ",a,", &[(1, Err(Backtrack), 0)]);
}

/// A name, `=` and the range of the digits after it, in units from the start of the text.
fn placed<I>(rt: &impl Abort)
where
    I: Lines + Location + Compare<char>,
    I::Token: AsChar + Copy,
    I::Slice: PartialEq + Debug,
{
    let make = || {
        let digits: Span<Digit1, I, I::Slice, Modal> = Digit1.span();
        let parser: Preceded<(Alpha1, char), _, I, (I::Slice, char), Places<usize>, Modal> =
            preceded((Alpha1, '='), digits);
        parser
    };
    let wants = [(6, Ok(3..5), 5), (6, Err(Backtrack), 5)];
    calls::<I, Places<usize>, _, _>(rt, make, "ab=12;3", &wants);
    let wants = [(4, Ok(2..3), 3), (8, Ok(5..7), 7)];
    calls::<I, Places<usize>, _, _>(rt, make, "a=1b=23\n", &wants);
    calls::<I, Places<usize>, _, _>(rt, make, "a=b", &[(3, Err(Backtrack), 2)]);
}

/// Lists: numbers that each have a comma behind them, and numbers with commas between them.
fn listed<I>(rt: &impl Abort, alloc: Global) -> Result<(), Fail>
where
    I: Lines + SlicesAsBytes + Compare<char>,
    I::Token: AsChar + Copy,
    I::Slice: AsBStr + PartialEq + Debug,
{
    let make = || {
        let item: Terminated<DecUint, char, I, u8, char, Modal> = terminated(DecUint, ',');
        let parser: Repeat<_, I, u8, Vec<u8>, Modal, Global> = repeat(alloc, .., item);
        parser
    };
    let wants = [(7, Ok(vec![in alloc; 1, 22]?), 5)];
    calls::<I, Vec<u8>, _, _>(rt, make, "1,22,3;", &wants);
    calls::<I, Vec<u8>, _, _>(rt, make, ";", &[(1, Ok(Vec::new(alloc)), 0)]);
    let make = || {
        let parser: Separated<DecUint, char, I, u8, char, Vec<u8>, Modal, Global> = separated(
            alloc,
            1..,
            DecUint,
            ',',
        );
        parser
    };
    let wants = [(5, Ok(vec![in alloc; 1, 22]?), 4)];
    calls::<I, Vec<u8>, _, _>(rt, make, "1,22;", &wants);
    let wants = [(3, Ok(vec![in alloc; 7]?), 1)];
    calls::<I, Vec<u8>, _, _>(rt, make, "7,;", &wants);
    calls::<I, Vec<u8>, _, _>(rt, make, ",7", &[(1, Err(Backtrack), 0)]);
    Ok(())
}

/// `ab` or else `a`, and a name whose value is an error that ends the parse if it is missing.
fn chosen<I>(rt: &impl Abort)
where
    I: Lines + Compare<char>,
    I::Token: AsChar + Copy,
    I::Slice: PartialEq + Debug,
{
    let wants = [
        (2, Ok(I::slice_of_text("ab")), 2),
        (4, Ok(I::slice_of_text("a")), 3),
        (4, Err(Backtrack), 3),
    ];
    calls::<I, I::Slice, _, _>(rt, || alt(("ab", "a")), "abac", &wants);
    let make = || {
        let value: CutErr<Digit1, I, I::Slice, Modal> = cut_err(Digit1);
        let parser: Preceded<(Alpha1, char), _, I, (I::Slice, char), I::Slice, Modal> = preceded(
            (Alpha1, '='),
            value,
        );
        parser
    };
    let wants = [(4, Ok(I::slice_of_text("1")), 3), (6, Err(Cut), 5)];
    calls::<I, I::Slice, _, _>(rt, make, "a=1b=;", &wants);
}

#[test]
fn a_closure_that_counts(rt: HostRuntime) {
    numbered::<Text>(&rt);
    numbered::<Bytes>(&rt);
}

#[test]
fn spans_by_parse_cut(rt: HostRuntime) {
    placed::<LocatingSlice<Text>>(&rt);
    placed::<LocatingSlice<Bytes>>(&rt);
}

#[test]
fn lists_by_parse_cut(rt: HostRuntime) -> Result<(), Fail> {
    listed::<Text>(&rt, rt.alloc())?;
    listed::<Bytes>(&rt, rt.alloc())
}

#[test]
fn choices_by_parse_cut(rt: HostRuntime) {
    chosen::<Text>(&rt);
    chosen::<Bytes>(&rt);
}
