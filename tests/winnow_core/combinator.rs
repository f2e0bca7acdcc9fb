//! `eof`, and the adapters of parsers.
mod errors;
mod outputs;
mod places;
mod refusals;

use std::fmt::Debug;
use std::process::Abort;
use stream_errors::parser_error::ParserError;
use stream_searches::compare::Compare;
use test_support::outcomes::BACKTRACKS;
use test_support::outcomes::Ending::Takes;
use test_support::outcomes::Kind::Backtrack;
use test_support::rows::{answers, ends_each, slices_each};
use test_support::texts::OfText;
use test_support::{at_bytes, at_streams};
use winnow_core::combinator;
use winnow_core::combinator::impls::Eof;
use winnow_core::parser::Func;

/// The end of the input, without `Incomplete`.
fn eof_at<I: OfText, E: ParserError<I>>(rt: &impl Abort)
where
    I::Slice: PartialEq + Debug,
{
    let rows = [
        ("", Takes(0), Takes(0)),
        ("é", BACKTRACKS, BACKTRACKS),
        ("éa", BACKTRACKS, BACKTRACKS),
    ];
    ends_each::<I, _, E, _>(rt, "eof", Eof, &rows);
    let rows = [("a", Err(Backtrack), "a")];
    slices_each::<I, E, _>(rt, "eof", Func(combinator::eof::<I, E>), &rows);
}

/// The end after a byte.
fn eof_behind<I: OfText + Compare<u8>, E: ParserError<I>>(rt: &impl Abort)
where
    I::Slice: PartialEq + Debug,
{
    let both = Ok((b'a', I::slice_of_text("")));
    answers::<I, (u8, I::Slice), E, _>(rt, "eof behind a byte", (b'a', Eof), "a", both, "");
}

#[test]
fn eof(rt: HostRuntime) {
    at_streams!(rt; eof_at);
    at_bytes!(rt; eof_behind);
}
