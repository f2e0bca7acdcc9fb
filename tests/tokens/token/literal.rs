//! Literals.
use std::fmt::Debug;
use std::process::Abort;
use stream_errors::parser_error::ParserError;
use stream_searches::caseless::Caseless;
use stream_searches::compare::Compare;
use test_support::outcomes::Ending::Takes;
use test_support::outcomes::Kind::Backtrack;
use test_support::outcomes::{BACKTRACKS, LACKS};
use test_support::rows::{answers, ends, ends_each, slices_each, sweep};
use test_support::texts::OfText;
use test_support::{at_bytes, at_streams, at_text};
use winnow_token::token;

/// A text, and a character with the slice that it is.
fn literal_of_text<I: OfText + Compare<&'static str> + Compare<char>, E: ParserError<I>>(
    rt: &impl Abort,
)
where
    I::Slice: PartialEq + Debug,
{
    let rows = [
        ("", BACKTRACKS, LACKS),
        ("π", BACKTRACKS, LACKS),
        ("πa", Takes(3), Takes(3)),
        ("πb", BACKTRACKS, BACKTRACKS),
    ];
    ends_each::<I, _, E, _>(rt, "literal(\"πa\")", token::literal("πa"), &rows);
    let row = ("π3.14", Ok("π"), "3.14");
    slices_each::<I, E, _>(rt, "literal('π')", token::literal('π'), &[row]);
    let row = ("π", Err(Backtrack), "π");
    slices_each::<I, E, _>(rt, "literal('-')", token::literal('-'), &[row]);
}

/// The prefixes of a text, and letters of either case.
fn literal_on_beginnings<I, E>(rt: &impl Abort)
where
    I: OfText + Compare<&'static str> + Compare<Caseless<&'static str>>,
    E: ParserError<I>,
{
    let as_whole = [BACKTRACKS, BACKTRACKS, Takes(3), Takes(3)];
    let as_cut = [LACKS, LACKS, Takes(3), Takes(3)];
    let text = token::literal("aé");
    sweep::<I, _, E, _>(rt, "literal(\"aé\")", text, "aé;", &as_whole, &as_cut);
    let accent = token::literal(Caseless("é"));
    let row = ("É", BACKTRACKS, BACKTRACKS);
    ends::<I, _, E, _>(rt, "literal(Caseless(\"é\"))", accent, row);
}

/// Slices of bytes.
fn literal_of_bytes<I: OfText + Compare<&'static [u8]>, E: ParserError<I>>(rt: &impl Abort)
where
    I::Slice: PartialEq + Debug,
{
    let rows = [
        ("abc", Ok("ab"), "c"),
        ("acb", Err(Backtrack), "acb"),
        ("a", Err(Backtrack), "a"),
    ];
    let slice = token::literal(b"ab".as_slice());
    slices_each::<I, E, _>(rt, "literal(b\"ab\")", slice, &rows);
    let empty = token::literal(b"".as_slice());
    let want = Ok(I::slice_of_text(""));
    answers::<I, _, E, _>(rt, "literal(b\"\")", empty, "abc", want, "abc");
}

#[test]
fn literal(rt: HostRuntime) {
    at_streams!(rt; literal_of_text);
    at_text!(rt; literal_on_beginnings);
    at_bytes!(rt; literal_of_bytes);
}
