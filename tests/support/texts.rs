//! Streams that are made of texts.
use std::fmt::Debug;
use streams::locating::LocatingSlice;
use streams::partial::Partial;
use streams::stream::{Stream, StreamIsPartial};

/// A stream that the rows of a test run on.
pub trait OfText: StreamIsPartial + PartialEq + Debug {
    /// The stream of `text`, cut where the stream can be.
    fn of_text(text: &'static str) -> Self;

    /// Returns the stream of the first `count` tokens of `text`, or of all if there are fewer.
    fn of_beginning(text: &'static str, count: usize) -> Self;

    /// The slice that is `text`.
    fn slice_of_text(text: &'static str) -> Self::Slice;
}

impl OfText for &'static str {
    fn of_text(text: &'static str) -> &'static str {
        text
    }

    fn of_beginning(text: &'static str, count: usize) -> &'static str {
        let mut rest = text;
        match rest.offset_at(count) {
            Ok(offset) => rest.next_slice(offset),
            Err(_) => text,
        }
    }

    fn slice_of_text(text: &'static str) -> &'static str {
        text
    }
}

impl OfText for &'static [u8] {
    fn of_text(text: &'static str) -> &'static [u8] {
        text.as_bytes()
    }

    fn of_beginning(text: &'static str, count: usize) -> &'static [u8] {
        let all = text.as_bytes();
        all.get(..count).unwrap_or(all)
    }

    fn slice_of_text(text: &'static str) -> &'static [u8] {
        text.as_bytes()
    }
}

impl<I: OfText> OfText for Partial<I> {
    fn of_text(text: &'static str) -> Partial<I> {
        Partial::new(I::of_text(text))
    }

    fn of_beginning(text: &'static str, count: usize) -> Partial<I> {
        Partial::new(I::of_beginning(text, count))
    }

    fn slice_of_text(text: &'static str) -> I::Slice {
        I::slice_of_text(text)
    }
}

impl<I: OfText> OfText for LocatingSlice<I> {
    fn of_text(text: &'static str) -> LocatingSlice<I> {
        LocatingSlice::new(I::of_text(text))
    }

    fn of_beginning(text: &'static str, count: usize) -> LocatingSlice<I> {
        LocatingSlice::new(I::of_beginning(text, count))
    }

    fn slice_of_text(text: &'static str) -> I::Slice {
        I::slice_of_text(text)
    }
}

/// The stream, marked complete.
pub fn completed<I: StreamIsPartial>(mut input: I) -> I {
    let _state = input.complete();
    input
}

/// The stream of `text`, whole.
pub fn whole<I: OfText>(text: &'static str) -> I {
    completed(I::of_text(text))
}
