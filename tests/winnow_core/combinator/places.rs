//! Adapters that answer places, in units from the start of the stream.
use std::fmt::Debug;
use std::ops::Range;
use std::process::Abort;
use stream_errors::empty::EmptyError;
use stream_errors::parser_error::ParserError;
use streams::locating::LocatingSlice;
use streams::partial::Partial;
use streams::stream::{Location, Stream, UpdateSlice};
use test_support::rows::{Modal, answers, same};
use test_support::texts::{OfText, whole};
use winnow_core::combinator::impls::{Span, WithSpan};
use winnow_core::parser::Parser;
use winnow_token::token;
use winnow_token::token::impls::{Any, Rest, Take};

/// Returns the start and the end of the span of a parser on complete text.
fn places<I: OfText, E: ParserError<I>, P: Parser<I, Range<usize>, E> + Drop>(
    mut parser: P,
    text: &'static str,
) -> Option<(usize, usize)> {
    let places = parser.parse_next(&mut whole::<I>(text)).ok()?;
    Some((places.start, places.end))
}

fn span_at<I: OfText + Location + Stream<Token = char>, E: ParserError<I>>(rt: &impl Abort) {
    for (text, want) in [("éab", Some((0, 3))), ("éa", Some((0, 3))), ("é", None)] {
        let two: Span<(Any, Any), I, (char, char), E> = (Any, Any).span();
        same(rt, "span", text, places::<I, E, _>(two, text), want);
    }
    let behind = (Any, (Any, Any).span()).map(|pair: (char, Range<usize>)| pair.1);
    same(
        rt,
        "span behind one",
        "éab",
        places::<I, E, _>(behind, "éab"),
        Some((2, 4)),
    );
    let none: Span<(), I, (), E> = ().span();
    same(
        rt,
        "span of ()",
        "ab",
        places::<I, E, _>(none, "ab"),
        Some((0, 0)),
    );
}

#[test]
fn span(rt: HostRuntime) {
    span_at::<LocatingSlice<&str>, Modal>(&rt);
    span_at::<Partial<LocatingSlice<&str>>, Modal>(&rt);
}

/// Checks the rest of a stream and its span.
fn rest_at<I: OfText + Location, E: ParserError<I>>(
    rt: &impl Abort,
    row: &str,
    mut input: I,
    text: &'static str,
    want: (usize, usize),
)
where
    I::Slice: PartialEq + Debug,
{
    let mut rest: WithSpan<Rest, I, I::Slice, E> = Rest.with_span();
    match rest.parse_next(&mut input) {
        Ok((slice, places)) => {
            same(rt, "with_span", row, (places.start, places.end), want);
            same(rt, "with_span", row, slice, I::slice_of_text(text));
        }
        Err(_) => assert!(rt; false, "with_span at {row:?} is an error"),
    }
}

fn with_span_at<I, E>(rt: &impl Abort)
where
    I: OfText + Location + Stream<Token = char>,
    I::Slice: PartialEq + Debug,
    E: ParserError<I>,
{
    let mut input = whole::<I>("éab");
    same(rt, "next_token", "éab", input.next_token(), Some('é'));
    rest_at::<I, E>(rt, "éab", input, "ab", (2, 4));
}

/// The places of a stream over a part, made as a length prefix makes one: they count from the start
/// of the whole.
fn with_span_inside<I, E: ParserError<I>>(rt: &impl Abort)
where
    I: OfText + Location + UpdateSlice + Copy,
    I::Slice: PartialEq + Debug + Copy,
{
    let mut input = whole::<I>("\u{2}ABC");
    let mut taken: (Any, Take<I, E>) = (Any, token::take(2usize));
    match taken.parse_next(&mut input) {
        Ok((_, part)) => rest_at::<I, E>(rt, "AB", input.update_slice(part), "AB", (1, 3)),
        Err(_) => assert!(rt; false, "a part of two bytes is an error"),
    }
}

#[test]
fn with_span(rt: HostRuntime) {
    with_span_at::<LocatingSlice<&str>, Modal>(&rt);
    with_span_at::<Partial<LocatingSlice<&str>>, Modal>(&rt);
    with_span_inside::<LocatingSlice<&[u8]>, EmptyError>(&rt);
    with_span_inside::<Partial<LocatingSlice<&[u8]>>, EmptyError>(&rt);
}
