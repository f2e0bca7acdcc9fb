//! Header names, with a set of their bytes.

use crate::outcome::Outcome;
use std::alloc::Global;
use winnow::Parser;
use winnow::combinator::{repeat, terminated};
use winnow::error::{EmptyError, ErrMode};
use winnow::stream::ByteSet;
use winnow::token::take_while;

/// Counts the names that are followed by a colon; the set of their bytes is a table.
fn names_by_table<'i>(
    alloc: Global,
    set: ByteSet,
    input: &mut &'i [u8],
) -> Result<usize, ErrMode<EmptyError>> {
    repeat(
        alloc,
        0..,
        terminated(take_while(1.., set), b':'),
    )
    .parse_next(input)
}

/// Parses names of letters, digits and dashes, each followed by a colon, with a table.
#[unsafe(no_mangle)]
pub extern "C" fn timed_names_by_table(alloc: Global, input: &[u8], out: &mut Outcome) {
    let set = ByteSet::from_set(&(b'-', b'0'..=b'9', b'A'..=b'Z', b'a'..=b'z'));
    let mut rest = input;
    *out = Outcome {
        count: 0,
        sum: 0,
        left: 0,
    };
    if let Ok(all) = names_by_table(alloc, set, &mut rest) {
        out.count = all as u64;
        out.left = rest.len() as u64;
    }
}

/// Counts the names that are followed by a colon; the set is a tuple of a byte and ranges, the most
/// frequent first.
fn names_by_ranges<'i>(alloc: Global, input: &mut &'i [u8]) -> Result<usize, ErrMode<EmptyError>> {
    let set = (b'a'..=b'z', b'A'..=b'Z', b'-', b'0'..=b'9');
    repeat(
        alloc,
        0..,
        terminated(take_while(1.., set), b':'),
    )
    .parse_next(input)
}

/// Parses the same names, with ranges.
#[unsafe(no_mangle)]
pub extern "C" fn timed_names_by_ranges(alloc: Global, input: &[u8], out: &mut Outcome) {
    let mut rest = input;
    *out = Outcome {
        count: 0,
        sum: 0,
        left: 0,
    };
    if let Ok(all) = names_by_ranges(alloc, &mut rest) {
        out.count = all as u64;
        out.left = rest.len() as u64;
    }
}
