//! Bit fields: the first words of IPv4 headers (RFC 791), and fields that cross byte boundaries.
#![tactic(auto, using(winnow::specs::Rules::ends_follow))]

ghost use Rattle.winnow.specs.Input.{IsEndOf};

use crate::outcome::Outcome;
use winnow::binary::bits::impls::{Bits, Take};
use winnow::binary::bits::{bits, take};
use winnow::error::{EmptyError, ErrMode};
use winnow::prelude::*;
use winnow::stream::ByteStream;

/// The parsers of the version, the header's length, the type of service and the total length.
type Fields<I, E> = (
    Take<I, u8, E>,
    Take<I, u8, E>,
    Take<I, u8, E>,
    Take<I, u16, E>,
);

/// The parser of the four fields.
fn fields<I: ByteStream + StreamIsPartial, E: ParserError<Bits<I>>>() -> Fields<I, E> {
    (take(4_u8), take(4_u8), take(8_u8), take(16_u8))
}

/// Parses one word, and returns the sum of its fields.
fn word<I: ByteStream + StreamIsPartial + Copy>(input: &mut I) -> Result<u64, ErrMode<EmptyError>>
    ensures { IsEndOf I.reading (I.view input.new) (I.view input.old) }
{
    match bits(fields::<I, ErrMode<EmptyError>>()).parse_next(input) {
        Ok((version, header_length, type_of_service, total_length)) => {
            let fields = (version as u64).wrapping_add(header_length as u64);
            let more = (type_of_service as u64).wrapping_add(total_length as u64);
            Ok(fields.wrapping_add(more))
        }
        Err(error) => Err(error),
    }
}

/// Parses as many words as possible. Counts them, sums their fields, and returns the number of
/// bytes that remain.
fn read_words<I: ByteStream + StreamIsPartial + Copy>(input: &mut I) -> Outcome {
    let mut count: u64 = 0;
    let mut sum: u64 = 0;
    let mut left = input.eof_offset();
    // There are at most as many words as bytes.
    for _ in 0..left {
        match word(input) {
            Ok(fields) => {
                count = count.wrapping_add(1);
                sum = sum.wrapping_add(fields);
                left = input.eof_offset();
            }
            Err(_) => break,
        }
    }
    Outcome {
        count,
        sum,
        left: left as u64,
    }
}

/// Parses words of four fields. Counts them, and sums their fields.
#[unsafe(no_mangle)]
pub extern "C" fn timed_words_of_bits(input: &[u8], out: &mut Outcome) {
    let mut rest = input;
    *out = read_words(&mut rest);
}

/// The parsers of four fields that fill 64 bits; the last two fields span three and four bytes.
type WideFields<I, E> = (
    Take<I, u8, E>,
    Take<I, u16, E>,
    Take<I, u32, E>,
    Take<I, u32, E>,
);

/// The parser of these fields.
fn wide_fields<I: ByteStream + StreamIsPartial, E: ParserError<Bits<I>>>() -> WideFields<I, E> {
    (take(3_u8), take(13_u8), take(21_u8), take(27_u8))
}

/// Parses 64 bits, and returns the sum of their fields.
fn wide_word<I: ByteStream + StreamIsPartial + Copy>(
    input: &mut I,
) -> Result<u64, ErrMode<EmptyError>>
    ensures { IsEndOf I.reading (I.view input.new) (I.view input.old) }
{
    match bits(wide_fields::<I, ErrMode<EmptyError>>()).parse_next(input) {
        Ok((first, second, third, fourth)) => {
            let fields = (first as u64).wrapping_add(second as u64);
            let more = (third as u64).wrapping_add(fourth as u64);
            Ok(fields.wrapping_add(more))
        }
        Err(error) => Err(error),
    }
}

/// Like `read_words`, for words whose fields cross byte boundaries.
fn read_wide_words<I: ByteStream + StreamIsPartial + Copy>(input: &mut I) -> Outcome {
    let mut count: u64 = 0;
    let mut sum: u64 = 0;
    let mut left = input.eof_offset();
    // There are at most as many words as bytes.
    for _ in 0..left {
        match wide_word(input) {
            Ok(fields) => {
                count = count.wrapping_add(1);
                sum = sum.wrapping_add(fields);
                left = input.eof_offset();
            }
            Err(_) => break,
        }
    }
    Outcome {
        count,
        sum,
        left: left as u64,
    }
}

/// Parses words of four fields that cross byte boundaries. Counts them, and sums their fields.
#[unsafe(no_mangle)]
pub extern "C" fn timed_wide_words(input: &[u8], out: &mut Outcome) {
    let mut rest = input;
    *out = read_wide_words(&mut rest);
}
