//! The longest prefix of tokens that are not members of a set.
use std::process::Abort;
use stream_errors::parser_error::ParserError;
use stream_sets::as_char::AsChar;
use stream_sets::range::Range;
use test_support::at_text;
use test_support::outcomes::Ending::Takes;
use test_support::outcomes::{BACKTRACKS, CUTS, lacks};
use test_support::rows::{ends, sweep};
use test_support::texts::OfText;
use winnow_token::token;

/// All before a semicolon, by ranges.
fn take_till_of_text<I: OfText, E: ParserError<I>>(rt: &impl Abort)
where
    I::Token: AsChar + Copy,
{
    for (name, range, row) in [
        (
            "take_till(1..)",
            Range::from(1..),
            (";a", BACKTRACKS, BACKTRACKS),
        ),
        (
            "take_till(0..)",
            Range::from(0..),
            ("aé;", Takes(3), Takes(3)),
        ),
        (
            "take_till(0..)",
            Range::from(0..),
            ("aé", Takes(3), lacks(1)),
        ),
        ("take_till(3..=2)", Range::from(3..=2), ("aé", CUTS, CUTS)),
    ] {
        ends::<I, _, E, _>(rt, name, token::take_till(range, ';'), row);
    }
    let any = token::take_till(0.., ';');
    let as_whole = [Takes(0), Takes(1), Takes(3), Takes(3)];
    let as_cut = [lacks(1), lacks(1), lacks(1), Takes(3)];
    sweep::<I, _, E, _>(rt, "take_till(0..)", any, "aé;", &as_whole, &as_cut);
    let some = token::take_till(1.., ';');
    let as_cut = [lacks(1), BACKTRACKS, BACKTRACKS, BACKTRACKS];
    sweep::<I, _, E, _>(rt, "take_till(1..)", some, ";a;", &[BACKTRACKS; 4], &as_cut);
}

#[test]
fn take_till(rt: HostRuntime) {
    at_text!(rt; take_till_of_text);
}
