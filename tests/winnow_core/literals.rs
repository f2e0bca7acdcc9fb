//! Literals by value.
use std::fmt::Debug;
use std::process::Abort;
use stream_errors::empty::EmptyError;
use stream_errors::parser_error::ParserError;
use stream_searches::caseless::Caseless;
use stream_searches::compare::Compare;
use streams::partial::Partial;
use test_support::outcomes::Ending::Takes;
use test_support::outcomes::Kind::Backtrack;
use test_support::outcomes::{BACKTRACKS, LACKS};
use test_support::rows::{answers, ends_each, slices_each, sweep};
use test_support::texts::OfText;
use test_support::{at_bytes, at_streams, at_text};

fn text<I: OfText + Compare<&'static str>, E: ParserError<I>>(rt: &impl Abort) {
    let rows = [
        ("", BACKTRACKS, LACKS),
        ("π", BACKTRACKS, LACKS),
        ("πa", Takes(3), Takes(3)),
        ("πb", BACKTRACKS, BACKTRACKS),
    ];
    ends_each::<I, _, E, _>(rt, "a text", "πa", &rows);
}

#[test]
fn texts(rt: HostRuntime) {
    at_streams!(rt; text);
    let rows = [("", BACKTRACKS, BACKTRACKS), ("é", BACKTRACKS, BACKTRACKS)];
    ends_each::<Partial<&str>, _, EmptyError, _>(&rt, "a text, plain", "éa", &rows);
}

/// A character at bytes, which may be cut inside of it.
fn character<I: OfText + Compare<char>, E: ParserError<I>>(rt: &impl Abort) {
    let as_whole = [BACKTRACKS, BACKTRACKS, Takes(2), Takes(2)];
    let as_cut = [LACKS, LACKS, Takes(2), Takes(2)];
    sweep::<I, _, E, _>(rt, "a character", 'é', "éa", &as_whole, &as_cut);
    sweep::<I, _, E, _>(rt, "a character", 'π', "π;", &as_whole, &as_cut);
    let two = ('a', 'é');
    let as_cut = [LACKS, BACKTRACKS, BACKTRACKS];
    sweep::<I, _, E, _>(rt, "two characters", two, "é", &[BACKTRACKS; 3], &as_cut);
}

#[test]
fn characters(rt: HostRuntime) {
    at_bytes!(rt; character);
}

/// A byte, and arrays and slices of bytes.
fn byte<I, E: ParserError<I>>(rt: &impl Abort)
where
    I: OfText + Compare<u8> + Compare<&'static [u8]> + Compare<&'static [u8; 2]>,
    I::Slice: PartialEq + Debug,
{
    let rows = [
        ("abc", Ok("ab"), "c"),
        ("acb", Err(Backtrack), "acb"),
        ("a", Err(Backtrack), "a"),
    ];
    slices_each::<I, E, _>(rt, "an array", b"ab", &rows);
    slices_each::<I, E, _>(rt, "a slice", b"ab".as_slice(), &rows);
    answers::<I, u8, E, _>(rt, "a byte", b'a', "ab", Ok(b'a'), "b");
}

#[test]
fn bytes(rt: HostRuntime) {
    at_bytes!(rt; byte);
}

/// Texts without regard to case.
fn caseless_text<I: OfText + Compare<Caseless<&'static str>>, E: ParserError<I>>(rt: &impl Abort)
where
    I::Slice: PartialEq + Debug,
{
    let as_whole = [BACKTRACKS, BACKTRACKS, Takes(3), Takes(3)];
    let as_cut = [LACKS, LACKS, Takes(3), Takes(3)];
    sweep::<I, _, E, _>(rt, "Caseless", Caseless("aé"), "Aé;", &as_whole, &as_cut);
    let rows = [
        ("HeLLo!", Ok("HeLLo"), "!"),
        ("help", Err(Backtrack), "help"),
    ];
    slices_each::<I, E, _>(rt, "Caseless", Caseless("hello"), &rows);
    let rows = [
        ("heL", BACKTRACKS, LACKS),
        ("HeLLo!", Takes(5), Takes(5)),
        ("help", BACKTRACKS, BACKTRACKS),
    ];
    ends_each::<I, _, E, _>(rt, "Caseless", Caseless("hello"), &rows);
    let rows = [("É", BACKTRACKS, BACKTRACKS), ("é", Takes(2), Takes(2))];
    ends_each::<I, _, E, _>(rt, "Caseless of an accent", Caseless("é"), &rows);
}

#[test]
fn caseless(rt: HostRuntime) {
    at_text!(rt; caseless_text);
}
