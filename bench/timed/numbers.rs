//! Numbers separated by commas, or each followed by a comma.

use crate::outcome::Outcome;
use std::alloc::Global;
use winnow::ascii::impls::DecUint;
use winnow::combinator::{repeat, separated, terminated};
use winnow::error::{EmptyError, ErrMode, InputError};
use winnow::prelude::*;
use winnow::stream::{AsBStr, AsChar, Compare, Partial, SlicesAsBytes};

fn list<'i>(
    alloc: Global,
    input: &mut &'i [u8],
) -> Result<Vec<u32, Global>, ErrMode<InputError<&'i [u8]>>> {
    separated(alloc, 0.., DecUint.map(|number: u32| number), b',').parse_next(input)
}

/// Parses a list of numbers. `out` stays zero if an allocation fails.
#[unsafe(no_mangle)]
pub extern "C" fn timed_number_list(alloc: Global, input: &[u8], out: &mut Outcome) {
    let mut rest = input;
    *out = Outcome {
        count: 0,
        sum: 0,
        left: 0,
    };
    if let Ok(all) = list(alloc, &mut rest) {
        out.count = all.len() as u64;
        out.left = rest.len() as u64;
    }
}

/// Counts and sums numbers.
fn sum<'i>(
    alloc: Global,
    input: &mut &'i [u8],
) -> Result<(u64, u64), ErrMode<InputError<&'i [u8]>>> {
    repeat(alloc, 0.., terminated(DecUint, b','))
        .fold(
            || (0u64, 0u64),
            |all: (u64, u64), n: u32| (all.0.wrapping_add(1), all.1.wrapping_add(n as u64)),
        )
        .parse_next(input)
}

/// Sums numbers.
#[unsafe(no_mangle)]
pub extern "C" fn timed_number_sum(alloc: Global, input: &[u8], out: &mut Outcome) {
    let mut rest = input;
    *out = Outcome {
        count: 0,
        sum: 0,
        left: 0,
    };
    if let Ok(all) = sum(alloc, &mut rest) {
        out.count = all.0;
        out.sum = all.1;
        out.left = rest.len() as u64;
    }
}

/// Parses a number and a comma, which may be incomplete on partial input.
fn item<I: StreamIsPartial + SlicesAsBytes + Compare<u8>, E: ParserError<I>>(
    input: &mut I,
) -> Result<u32, E>
where
    I::Token: AsChar,
    I::Slice: AsBStr,
{
    terminated(DecUint, b',').parse_next(input)
}

/// Parses and sums as many numbers as possible, and returns the number of units that remain.
fn read_numbers<I: StreamIsPartial + SlicesAsBytes + Compare<u8>>(
    input: &mut I,
    out: &mut Outcome,
) -> usize
where
    I::Token: AsChar,
    I::Slice: AsBStr,
{
    let mut left = input.eof_offset();
    // There are at most as many numbers as units.
    for _ in 0..left {
        match item::<I, ErrMode<EmptyError>>(input) {
            Ok(number) => {
                out.count = out.count.wrapping_add(1);
                out.sum = out.sum.wrapping_add(number as u64);
                left = input.eof_offset();
            }
            Err(_) => break,
        }
    }
    left
}

/// Like `read_numbers`, for a chunk of partial input.
fn read_piece<I: StreamIsPartial + SlicesAsBytes + Compare<u8>>(
    piece: I,
    out: &mut Outcome,
) -> usize
where
    I::Token: AsChar,
    I::Slice: AsBStr,
{
    let mut input = Partial::new(piece);
    read_numbers(&mut input, out)
}

/// Sums numbers that arrive in chunks of 4 KiB: each chunk starts where the previous one was
/// incomplete.
#[unsafe(no_mangle)]
pub extern "C" fn timed_number_pieces(input: &[u8], out: &mut Outcome) {
    let mut rest = input;
    *out = Outcome {
        count: 0,
        sum: 0,
        left: 0,
    };
    // There are at most as many chunks as bytes.
    for _ in 0..input.len() {
        let size = rest.len().min(4096);
        let read = size.saturating_sub(read_piece(&rest[..size], out));
        if read == 0 {
            break;
        }
        rest = &rest[read..];
    }
    out.left = rest.len() as u64;
}
