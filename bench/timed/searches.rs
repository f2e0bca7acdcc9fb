//! Searches for a literal.

use crate::outcome::Outcome;
use std::alloc::Global;
use winnow::Parser;
use winnow::combinator::{repeat, terminated};
use winnow::error::{ErrMode, InputError};
use winnow::token::{literal, take_until};

/// Counts the parts that are followed by the literal.
fn parts<'i>(
    alloc: Global,
    mark: &'static [u8],
    input: &mut &'i [u8],
) -> Result<usize, ErrMode<InputError<&'i [u8]>>> {
    repeat(
        alloc,
        0..,
        terminated(take_until(0.., mark), literal(mark)),
    )
    .parse_next(input)
}

/// Parses parts that are each followed by the literal.
#[unsafe(no_mangle)]
pub extern "C" fn timed_until(alloc: Global, mark: &'static [u8], input: &[u8], out: &mut Outcome) {
    let mut rest = input;
    *out = Outcome {
        count: 0,
        sum: 0,
        left: 0,
    };
    if let Ok(all) = parts(alloc, mark, &mut rest) {
        out.count = all as u64;
        out.left = rest.len() as u64;
    }
}
