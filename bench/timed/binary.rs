//! Workloads with binary integers, and with length-prefixed records.
#![tactic(auto, using(winnow::specs::Rules::ends_follow))]

ghost use Rattle.winnow.specs.Terms.{AnyOutcome, meets_no_terms, no_terms};
ghost use Rattle.std.specs.Prelude.{⊤};
ghost use Rattle.winnow.specs.Bytes.{bytes_input, bytes_reading};
ghost use Rattle.winnow.specs.Input.{IsEndOf};

use crate::outcome::Outcome;
use std::alloc::Global;
use winnow::binary::impls::{BeU16, BeU32, LengthTake};
use winnow::binary::length_take;
use winnow::combinator::repeat;
use winnow::error::{EmptyError, ErrMode};
use winnow::prelude::*;
use winnow::stream::ByteStream;

/// Parses as many integers as possible.
fn integers<'i>(
    alloc: Global,
    input: &mut &'i [u8],
) -> Result<Vec<u32, Global>, ErrMode<EmptyError>> {
    repeat(alloc, 0.., BeU32).parse_next(input)
}

/// Parses 4-byte big-endian integers into a list and counts them. `out` stays zero if an allocation
/// fails.
#[unsafe(no_mangle)]
pub extern "C" fn timed_integers(alloc: Global, input: &[u8], out: &mut Outcome) {
    let mut rest = input;
    *out = Outcome {
        count: 0,
        sum: 0,
        left: 0,
    };
    if let Ok(all) = integers(alloc, &mut rest) {
        out.count = all.len() as u64;
        out.left = rest.len() as u64;
    }
}

/// A record: its kind, and its payload.
type Record<'i> = (u16, &'i [u8]);

/// The parsers of a kind, and of a length-prefixed payload.
type RecordParts<I, E> = (BeU16, LengthTake<BeU16, I, u16, E>);

/// The parser of a record.
fn parts<I: StreamIsPartial + ByteStream, E: ParserError<I>>() -> RecordParts<I, E> {
    (BeU16, length_take(BeU16))
}

/// Parses one record.
fn record<'i>(input: &mut &'i [u8]) -> Result<Record<'i>, ErrMode<EmptyError>>
    ensures { IsEndOf bytes_reading (bytes_input input.new.now) (bytes_input input.old.now) }
{
    match parts().parse_next(input) {
        Ok(parts) => Ok(parts),
        Err(error) => Err(error),
    }
}

/// The parser of a record.
#[derive(Clone, Copy)]
struct RecordReader;

impl<'i> Parser<&'i [u8], Record<'i>, ErrMode<EmptyError>> for RecordReader {
    ghost State = { ⊤ };

    ghost state = { λ _. tt };

    ghost does = { AnyOutcome };

    ghost terms = { no_terms };

    ghost lawful = { meets_no_terms };

    #[inline(always)]
    fn parse_next(&mut self, input: &mut &'i [u8]) -> Result<Record<'i>, ErrMode<EmptyError>> {
        record(input)
    }
}

/// Parses as many records as possible.
fn records<'i>(
    alloc: Global,
    input: &mut &'i [u8],
) -> Result<Vec<Record<'i>, Global>, ErrMode<EmptyError>> {
    repeat(alloc, 0.., RecordReader).parse_next(input)
}

/// Returns the sum of the kinds and of the lengths of the payloads.
fn total(records: &[Record<'_>]) -> u64 {
    let mut sum: u64 = 0;
    for record in records {
        sum = sum
            .wrapping_add(record.0 as u64)
            .wrapping_add(record.1.len() as u64);
    }
    sum
}

/// Parses records into a list: a two-byte kind, a two-byte length, and a payload of that length.
/// Counts them, and sums their kinds and lengths. `out` stays zero if an allocation fails.
#[unsafe(no_mangle)]
pub extern "C" fn timed_records(alloc: Global, input: &[u8], out: &mut Outcome) {
    let mut rest = input;
    *out = Outcome {
        count: 0,
        sum: 0,
        left: 0,
    };
    if let Ok(all) = records(alloc, &mut rest) {
        out.count = all.len() as u64;
        out.sum = total(&all);
        out.left = rest.len() as u64;
    }
}
