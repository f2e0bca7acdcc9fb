//! Rows on partial input, each compared with longer inputs.
use crate::settling::{Bytes, Text};
use std::fmt::Debug;
use std::process::Abort;
use stream_searches::compare::Compare;
use stream_searches::slice_len::SliceLen;
use stream_sets::as_bstr::{AsBStr, SlicesAsBytes};
use stream_sets::as_char::AsChar;
use stream_sets::classes::DecimalDigits;
use streams::locating::LocatingSlice;
use streams::needed::Needed;
use streams::stream::Stream;
use test_support::outcomes::Kind::{self, Backtrack, Incomplete};
use test_support::outcomes::outcome_of;
use test_support::rows::{Answer, Modal, answers_on_cut, same};
use test_support::texts::{OfText, whole};
use winnow_ascii::ascii::impls::Digit1;
use winnow_comb::combinator::impls::{AltParser, Not, Opt};
use winnow_comb::combinator::{alt, not, opt};
use winnow_core::parser::Parser;
use winnow_numbers::ascii::impls::HexUintParser;
use winnow_separated::combinator::impls::Separated;
use winnow_separated::combinator::separated;
use winnow_token::token::impls::TakeWhile;
use winnow_token::token::take_while;

const UNKNOWN: Kind = Incomplete(Needed::Unknown);

/// Checks each row on partial text. The rows are longer and longer inputs: after a result other
/// than `Incomplete`, the following rows give the same result, on partial and on complete input.
fn pairs<I, O, P>(rt: &impl Abort, name: &str, mut parser: P, rows: &[Answer<O>])
where
    I: OfText,
    O: PartialEq + Debug + Copy,
    P: Parser<I, O, Modal> + Drop,
{
    let mut settled: Option<Result<O, Kind>> = None;
    for (text, want, rest) in rows {
        answers_on_cut::<I, O, Modal, P>(rt, name, &mut parser, (*text, *want, *rest));
        if let Some(answer) = settled {
            same(rt, name, text, *want, answer);
        }
        if !matches!(want, Err(Incomplete(_))) {
            settled = Some(*want);
            let got = outcome_of::<I, O, Modal, P>(&mut parser, whole(text));
            same(rt, name, text, got, (*want, whole(rest)));
        }
    }
}

/// Such rows of a parser whose outputs are slices, by how many units they have.
fn slice_pairs<I, P>(rt: &impl Abort, name: &str, parser: P, rows: &[Answer<usize>])
where
    I: OfText,
    I::Slice: SliceLen,
    P: Parser<I, I::Slice, Modal> + Drop,
{
    pairs::<I, usize, _>(rt, name, parser.map(|slice: I::Slice| slice.slice_len()), rows);
}

fn alt_settles<I: OfText + Compare<&'static str>>(rt: &impl Abort)
where
    I::Slice: SliceLen,
{
    let make: AltParser<(&str, &str), I, I::Slice, Modal> = alt(("ab", "a"));
    slice_pairs::<I, _>(rt, "alt", make, &[("a", Err(UNKNOWN), "a"), ("ab", Ok(2), "")]);
    let make: AltParser<(&str, &str), I, I::Slice, Modal> = alt(("ab", "a"));
    slice_pairs::<I, _>(rt, "alt", make, &[("ac", Ok(1), "c"), ("acb", Ok(1), "cb")]);
}

#[test]
fn alt_is_settled(rt: HostRuntime) {
    alt_settles::<Text>(&rt);
    alt_settles::<Bytes>(&rt);
}

fn not_settles<I: OfText + Compare<&'static str>>(rt: &impl Abort)
where
    I::Slice: Drop,
{
    let rows = [
        ("a", Err(UNKNOWN), "a"),
        ("ab", Err(Backtrack), "ab"),
        ("abc", Err(Backtrack), "abc"),
    ];
    let make: Not<&str, I, I::Slice, Modal> = not("ab");
    pairs::<I, (), _>(rt, "not", make, &rows);
    let make: Not<&str, I, I::Slice, Modal> = not("ab");
    pairs::<I, (), _>(rt, "not", make, &[("a", Err(UNKNOWN), "a"), ("ac", Ok(()), "ac")]);
}

#[test]
fn not_is_settled(rt: HostRuntime) {
    not_settles::<Text>(&rt);
    not_settles::<Bytes>(&rt);
    not_settles::<LocatingSlice<Text>>(&rt);
}

fn opt_settles<I: OfText + Compare<&'static str>>(rt: &impl Abort)
where
    I::Slice: SliceLen,
{
    let rows = [
        ("a", Err(UNKNOWN), "a"),
        ("ab", Ok(Some(2)), ""),
        ("ab;", Ok(Some(2)), ";"),
    ];
    let make: Opt<&str, I, I::Slice, Modal> = opt("ab");
    let make = make.map(|it: Option<I::Slice>| it.map(|slice: I::Slice| slice.slice_len()));
    pairs::<I, Option<usize>, _>(rt, "opt", make, &rows);
    let make: Opt<&str, I, I::Slice, Modal> = opt("ab");
    let make = make.map(|it: Option<I::Slice>| it.map(|slice: I::Slice| slice.slice_len()));
    let rows = [("a", Err(UNKNOWN), "a"), ("a;", Ok(None), "a;")];
    pairs::<I, Option<usize>, _>(rt, "opt", make, &rows);
}

#[test]
fn opt_is_settled(rt: HostRuntime) {
    opt_settles::<Text>(&rt);
    opt_settles::<Bytes>(&rt);
}

#[test]
fn separated_is_settled(rt: HostRuntime) {
    for (text, want, rest) in [
        ("1,2", None, ""),
        ("1,2;", Some(["1", "2"]), ";"),
        ("1,2;3", Some(["1", "2"]), ";3"),
    ] {
        let mut digits: Separated<_, _, Text, &str, char, Vec<&str>, Modal, _> = separated(
            rt.alloc(),
            0..,
            Digit1,
            ',',
        );
        let (answer, left) = outcome_of::<Text, Vec<&str>, Modal, _>(&mut digits, Text::new(text));
        match answer {
            Ok(list) => {
                same(
                    &rt,
                    "separated",
                    text,
                    Some(list.as_slice()),
                    want.as_ref().map(|x| x.as_slice()),
                );
                same(&rt, "separated", text, left, Text::new(rest));
            }
            Err(kind) => {
                same(&rt, "separated", text, None, want);
                same(&rt, "separated", text, kind, Incomplete(Needed::new(1)));
            }
        }
    }
}

fn take_while_settles<I: OfText>(rt: &impl Abort)
where
    I::Token: AsChar,
    I::Slice: SliceLen,
{
    let make: TakeWhile<DecimalDigits, I, Modal> = take_while(1..=3, DecimalDigits);
    let one = Incomplete(Needed::new(1));
    let rows = [("12", Err(one), "12"), ("123", Ok(3), ""), ("1234", Ok(3), "4")];
    slice_pairs::<I, _>(rt, "take_while", make, &rows);
}

#[test]
fn take_while_is_settled(rt: HostRuntime) {
    take_while_settles::<Text>(&rt);
    take_while_settles::<Bytes>(&rt);
}

fn hex_uint_settles<I: OfText + SlicesAsBytes>(rt: &impl Abort)
where
    I::Token: AsChar,
    I::Slice: AsBStr,
{
    let one = Incomplete(Needed::new(1));
    let rows = [
        ("f", Err(one), "f"),
        ("ff", Err(one), "ff"),
        ("ff;", Ok(255), ";"),
        ("ff;1", Ok(255), ";1"),
    ];
    pairs::<I, u8, _>(rt, "hex_uint", HexUintParser, &rows);
    let rows = [
        ("ff", Err(one), "ff"),
        ("fff", Err(Backtrack), "fff"),
        ("fff;", Err(Backtrack), "fff;"),
    ];
    pairs::<I, u8, _>(rt, "hex_uint", HexUintParser, &rows);
}

#[test]
fn hex_uint_is_settled(rt: HostRuntime) {
    hex_uint_settles::<Text>(&rt);
    hex_uint_settles::<Bytes>(&rt);
}
