//! Adapters that may reject an output: the input is then reset.
use std::process::Abort;
use stream_errors::external::FromExternalError;
use stream_errors::mode::ErrMode;
use stream_errors::parser_error::ParserError;
use stream_searches::compare::Compare;
use streams::stream::Stream;
use test_support::outcomes::Kind::{Backtrack, Memory};
use test_support::outcomes::outcome_of;
use test_support::rows::{Answer, Modal, answers_each, slices_each};
use test_support::texts::OfText;
use test_support::wanting::{TooLarge, Wanting};
use test_support::{at_bytes, at_text_also_plainly};
use winnow_ascii::ascii::impls::Digit1;
use winnow_core::combinator::impls::{AndThen, ParseTo};
use winnow_core::parser::Parser;
use winnow_token::token;
use winnow_token::token::impls::{Any, Rest, Take};

/// The results of a parser whose closure accepts only its second call: the closure is called once
/// if its parser succeeds, and not if it fails.
const SECOND: [Answer<u8>; 4] = [
    ("ab", Err(Backtrack), "ab"),
    ("", Err(Backtrack), ""),
    ("ab", Ok(2), "b"),
    ("ab", Err(Backtrack), "ab"),
];

fn verify_at<I: OfText + Stream<Token = char>, E: ParserError<I>>(rt: &impl Abort) {
    let rows = [
        ("1a", Ok('1'), "a"),
        ("a", Err(Backtrack), "a"),
        ("", Err(Backtrack), ""),
    ];
    let digit = Any.verify(|token: &char| token.is_ascii_digit());
    answers_each::<I, char, E, _>(rt, "verify", digit, &rows);
}

#[test]
fn verify(rt: HostRuntime) {
    at_text_also_plainly!(rt; verify_at);
    let mut calls = 0u8;
    let second = Any.verify(move |_: &char| {
        calls += 1;
        calls == 2
    });
    let rows = [
        ("ab", Err(Backtrack), "ab"),
        ("", Err(Backtrack), ""),
        ("ab", Ok('a'), "b"),
        ("ab", Err(Backtrack), "ab"),
    ];
    answers_each::<&str, char, Modal, _>(&rt, "verify, its calls", second, &rows);
}

/// The output where a function has one.
fn verify_map_at<I, E: ParserError<I>>(rt: &impl Abort)
where
    I: OfText + Stream<Slice = &'static [u8]> + Compare<&'static [u8; 2]>,
{
    let refused = b"ab".verify_map(|slice: &[u8]| slice.get(2).copied());
    let rows = [("abc", Err(Backtrack), "abc")];
    answers_each::<I, u8, E, _>(rt, "verify_map", refused, &rows);
    let kept = b"ab".verify_map(|slice: &[u8]| slice.first().copied());
    answers_each::<I, u8, E, _>(rt, "verify_map", kept, &[("abc", Ok(b'a'), "c")]);
}

#[test]
fn verify_map(rt: HostRuntime) {
    at_bytes!(rt; verify_map_at);
    let mut calls = 0u8;
    let second = Any.verify_map(move |_: char| {
        calls += 1;
        if calls == 2 { Some(calls) } else { None }
    });
    answers_each::<&str, u8, Modal, _>(&rt, "verify_map, its calls", second, &SECOND);
}

fn parse_to_at<I, E: ParserError<I>>(rt: &impl Abort)
where
    I: OfText + Stream<Token = char, Slice = &'static str>,
{
    let number: ParseTo<Digit1, I, &'static str, u8, E> = Digit1.parse_to();
    let rows = [
        ("25a", Ok(25), "a"),
        ("256", Err(Backtrack), "256"),
        ("a", Err(Backtrack), "a"),
    ];
    answers_each::<I, u8, E, _>(rt, "parse_to", number, &rows);
}

#[test]
fn parse_to(rt: HostRuntime) {
    at_text_also_plainly!(rt; parse_to_at);
}

/// Bytes are parsed as text; bytes that are not UTF-8 are a backtrack.
#[test]
fn parse_to_of_bytes(rt: HostRuntime) {
    let number: ParseTo<Digit1, &[u8], &[u8], u8, Modal> = Digit1.parse_to();
    let rows = [("25a", Ok(25), "a"), ("256", Err(Backtrack), "256")];
    answers_each::<&[u8], u8, Modal, _>(&rt, "parse_to of bytes", number, &rows);
    let mut character: ParseTo<Rest, &[u8], &[u8], char, Modal> = Rest.parse_to();
    for (bytes, want, rest) in [
        (b"\xC3\xA9".as_slice(), Ok('é'), b"".as_slice()),
        (b"\xC3".as_slice(), Err(Backtrack), b"\xC3".as_slice()),
        (b"\xFF".as_slice(), Err(Backtrack), b"\xFF".as_slice()),
    ] {
        let got = outcome_of::<&[u8], char, Modal, _>(&mut character, bytes);
        assert_eq!(rt; got, (want, rest), "parse_to at {bytes:?}");
    }
}

fn try_map_at<I, E>(rt: &impl Abort)
where
    I: OfText + Stream<Token = char, Slice = &'static str>,
    E: ParserError<I> + FromExternalError<I, &'static str>,
{
    let short = Digit1.try_map(|slice: &str| {
        if slice.len() < 3 {
            Ok(slice.len())
        } else {
            Err("too long")
        }
    });
    let rows = [
        ("12a", Ok(2), "a"),
        ("123", Err(Backtrack), "123"),
        ("a", Err(Backtrack), "a"),
    ];
    answers_each::<I, usize, E, _>(rt, "try_map", short, &rows);
}

#[test]
fn try_map(rt: HostRuntime) {
    at_text_also_plainly!(rt; try_map_at);
    let mut calls = 0u8;
    let second = Any.try_map(move |_: char| {
        calls += 1;
        if calls == 2 {
            Ok(calls)
        } else {
            Err("not the second")
        }
    });
    answers_each::<&str, u8, Modal, _>(&rt, "try_map, its calls", second, &SECOND);
}

/// The error finds no memory for that of the closure: the input is back at the start all the same.
#[test]
fn try_map_without_memory(rt: HostRuntime) {
    let rows = [
        ("12a", Ok(2), "a"),
        ("123a", Err(Memory), "123a"),
        ("a", Err(Backtrack), "a"),
    ];
    let short = |slice: &str| if slice.len() < 3 {
        Ok(slice.len())
    } else {
        Err(TooLarge)
    };
    answers_each::<&str, usize, Wanting, _>(&rt, "try_map", Digit1.try_map(short), &rows);
    let short = |slice: &str| if slice.len() < 3 {
        Ok(slice.len())
    } else {
        Err(TooLarge)
    };
    let parser = Digit1.try_map(short);
    answers_each::<&str, usize, ErrMode<Wanting>, _>(&rt, "try_map, modal", parser, &rows);
}

fn and_then_at<I, E>(rt: &impl Abort)
where
    I: OfText + Stream<Token = char, Slice = &'static str>,
    E: ParserError<I> + ParserError<&'static str>,
{
    let three: Take<I, E> = token::take(3usize);
    let digits: AndThen<Take<I, E>, Digit1, I, &'static str, &'static str, E> = three.and_then(
        Digit1,
    );
    let rows = [
        ("12ab", Ok("12"), "b"),
        ("ab12", Err(Backtrack), "ab12"),
        ("12", Err(Backtrack), "12"),
    ];
    slices_each::<I, E, _>(rt, "and_then", digits, &rows);
}

#[test]
fn and_then(rt: HostRuntime) {
    at_text_also_plainly!(rt; and_then_at);
}

/// A length, and as many characters after it.
fn flat_map_at<I, E: ParserError<I>>(rt: &impl Abort)
where
    I: OfText + Stream<Token = char, Slice = &'static str>,
{
    let counted = Any.flat_map(|count: char| {
        let parser: Take<I, E> = token::take(if count == '2' { 2usize } else { 3 });
        parser
    });
    let rows = [
        ("2abc", Ok("ab"), "c"),
        ("3a", Err(Backtrack), "a"),
        ("", Err(Backtrack), ""),
    ];
    slices_each::<I, E, _>(rt, "flat_map", counted, &rows);
}

#[test]
fn flat_map(rt: HostRuntime) {
    at_text_also_plainly!(rt; flat_map_at);
    let counted = Any.flat_map(|count: u8| {
        let parser: Take<&[u8], Modal> = token::take(count);
        parser
    });
    let rows = [("\u{2}ABC", Ok("AB"), "C"), ("\u{3}A", Err(Backtrack), "A")];
    slices_each::<&[u8], Modal, _>(&rt, "flat_map of bytes", counted, &rows);
    // Each call makes a parser of one token more.
    let mut calls = 0u8;
    let growing = Any.flat_map(move |_: char| {
        calls += 1;
        let parser: Take<&str, Modal> = token::take(calls);
        parser
    });
    let rows = [
        ("abcd", Ok("b"), "cd"),
        ("", Err(Backtrack), ""),
        ("abcd", Ok("bc"), "d"),
        ("abc", Err(Backtrack), "bc"),
    ];
    slices_each::<&str, Modal, _>(&rt, "flat_map, its calls", growing, &rows);
}
