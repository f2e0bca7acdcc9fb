//! All before the first match of a literal.
use std::process::Abort;
use stream_errors::empty::EmptyError;
use stream_errors::parser_error::ParserError;
use stream_searches::find::FindSlice;
use stream_sets::range::Range;
use streams::partial::Partial;
use test_support::at_text;
use test_support::outcomes::Ending::Takes;
use test_support::outcomes::{BACKTRACKS, CUTS, LACKS};
use test_support::rows::{ends, ends_each, sweep};
use test_support::texts::OfText;
use winnow_token::token;

/// All before a semicolon, as a text and as a character, by ranges; and before one of two.
fn take_until_of_text<I, E: ParserError<I>>(rt: &impl Abort)
where
    I: OfText + FindSlice<char> + FindSlice<&'static str> + FindSlice<(char, char)>,
{
    for (name, range, row) in [
        (
            "take_until(0..)",
            Range::from(0..),
            ("ab;c;", Takes(2), Takes(2)),
        ),
        (
            "take_until(0..)",
            Range::from(0..),
            (";a", Takes(0), Takes(0)),
        ),
        (
            "take_until(1..)",
            Range::from(1..),
            (";a", BACKTRACKS, BACKTRACKS),
        ),
        (
            "take_until(0..)",
            Range::from(0..),
            ("ab", BACKTRACKS, LACKS),
        ),
        (
            "take_until(3..)",
            Range::from(3..),
            ("a;bcde;", BACKTRACKS, LACKS),
        ),
        (
            "take_until(0..=2)",
            Range::from(0..=2),
            ("abc;", BACKTRACKS, BACKTRACKS),
        ),
        (
            "take_until(0..=3)",
            Range::from(0..=3),
            ("éßç;", Takes(6), Takes(6)),
        ),
        ("take_until(2)", Range::from(2), ("é;ß;", BACKTRACKS, LACKS)),
        (
            "take_until(3..=2)",
            Range::from(3..=2),
            ("abc;", CUTS, CUTS),
        ),
    ] {
        ends::<I, _, E, _>(rt, name, token::take_until(range, ";"), row);
        ends::<I, _, E, _>(rt, name, token::take_until(range, ';'), row);
    }
    let before = token::take_until(0..=5, (';', ','));
    ends::<I, _, E, _>(
        rt,
        "take_until(0..=5)",
        before,
        ("ab,c;", Takes(2), Takes(2)),
    );
}

/// The prefixes of texts with two dashes, by ranges.
fn take_until_on_beginnings<I: OfText + FindSlice<&'static str>, E: ParserError<I>>(
    rt: &impl Abort,
) {
    let back = BACKTRACKS;
    for (name, range, sample, as_whole, as_cut) in [
        (
            "take_until(0..)",
            Range::from(0..),
            "a-é--",
            [back, back, back, back, back, Takes(4)],
            [LACKS, LACKS, LACKS, LACKS, LACKS, Takes(4)],
        ),
        (
            "take_until(1..)",
            Range::from(1..),
            "--a--",
            [back; 6],
            [LACKS, LACKS, back, back, back, back],
        ),
        (
            "take_until(0..=1)",
            Range::from(0..=1),
            "aé--;",
            [back; 6],
            [LACKS, LACKS, LACKS, LACKS, back, back],
        ),
        (
            "take_until(2..=3)",
            Range::from(2..=3),
            "--a--",
            [back; 6],
            [LACKS; 6],
        ),
    ] {
        let before = token::take_until(range, "--");
        sweep::<I, _, E, _>(rt, name, before, sample, &as_whole, &as_cut);
    }
}

#[test]
fn take_until(rt: HostRuntime) {
    at_text!(rt; take_until_of_text, take_until_on_beginnings);
    let rows = [("", BACKTRACKS, BACKTRACKS), ("é", BACKTRACKS, BACKTRACKS)];
    let before = token::take_until(0.., ';');
    ends_each::<Partial<&str>, _, EmptyError, _>(&rt, "take_until, plain", before, &rows);
}
