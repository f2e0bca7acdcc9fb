//! Words: keywords, and words of text.

use crate::outcome::Outcome;
use std::alloc::Global;
use std::str;
use winnow::ascii::Caseless;
use winnow::combinator::{alt, repeat, terminated};
use winnow::error::{EmptyError, ErrMode};
use winnow::prelude::*;
use winnow::token::{literal, take_until};

/// Counts consecutive words, each one of six keywords followed by a space.
fn keywords<'i>(alloc: Global, input: &mut &'i [u8]) -> Result<usize, ErrMode<EmptyError>> {
    let keyword = alt((
        literal(b"select".as_slice()),
        literal(b"from".as_slice()),
        literal(b"where".as_slice()),
        literal(b"group".as_slice()),
        literal(b"order".as_slice()),
        literal(b"limit".as_slice()),
    ));
    repeat(alloc, 0.., terminated(keyword, b' ')).parse_next(input)
}

/// Parses words from six keywords, each followed by a space.
#[unsafe(no_mangle)]
pub extern "C" fn timed_keywords(alloc: Global, input: &[u8], out: &mut Outcome) {
    let mut rest = input;
    *out = Outcome {
        count: 0,
        sum: 0,
        left: 0,
    };
    if let Ok(all) = keywords(alloc, &mut rest) {
        out.count = all as u64;
        out.left = rest.len() as u64;
    }
}

/// Counts consecutive words, each one of six keywords in upper or lower case, followed by a space.
fn keywords_of_any_case<'i>(
    alloc: Global,
    input: &mut &'i [u8],
) -> Result<usize, ErrMode<EmptyError>> {
    let keyword = alt((
        literal(Caseless(b"select".as_slice())),
        literal(Caseless(b"from".as_slice())),
        literal(Caseless(b"where".as_slice())),
        literal(Caseless(b"group".as_slice())),
        literal(Caseless(b"order".as_slice())),
        literal(Caseless(b"limit".as_slice())),
    ));
    repeat(alloc, 0.., terminated(keyword, b' ')).parse_next(input)
}

/// Parses words from six keywords in upper or lower case, each followed by a space.
#[unsafe(no_mangle)]
pub extern "C" fn timed_any_case(alloc: Global, input: &[u8], out: &mut Outcome) {
    let mut rest = input;
    *out = Outcome {
        count: 0,
        sum: 0,
        left: 0,
    };
    if let Ok(all) = keywords_of_any_case(alloc, &mut rest) {
        out.count = all as u64;
        out.left = rest.len() as u64;
    }
}

/// Counts words that are followed by a space.
fn words<'i>(alloc: Global, input: &mut &'i str) -> Result<usize, ErrMode<EmptyError>> {
    repeat(
        alloc,
        0..,
        terminated(take_until(1.., ' '), ' '),
    )
    .parse_next(input)
}

/// Parses words, each followed by a space.
#[unsafe(no_mangle)]
pub extern "C" fn timed_words(alloc: Global, input: &[u8], out: &mut Outcome) {
    *out = Outcome {
        count: 0,
        sum: 0,
        left: 0,
    };
    if let Ok(text) = str::from_utf8(input) {
        let mut rest = text;
        if let Ok(all) = words(alloc, &mut rest) {
            out.count = all as u64;
            out.left = rest.as_bytes().len() as u64;
        }
    }
}
