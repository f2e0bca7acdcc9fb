//! Integer parsers. The expected values are those of Python's `int.from_bytes`.
use crate::common::{OfBytes, agree, answers, ends, fails_behind, sweep};
use std::fmt::Debug;
use std::process::Abort;
use std::test::Fail;
use stream_errors::parser_error::ParserError;
use stream_searches::compare::Compare;
use streams::locating::LocatingSlice;
use streams::needed::Needed;
use streams::partial::Partial;
use streams::stream::Stream;
use test_support::at_bytes;
use test_support::outcomes::Ending::Takes;
use test_support::outcomes::Kind::{Backtrack, Incomplete};
use test_support::outcomes::{BACKTRACKS, lacks, outcome_of};
use test_support::rows::Modal;
use winnow_binary::binary as chosen;
use winnow_core::parser::Parser;
use winnow_integers::binary::Endianness;
use winnow_integers::binary::impls::{
    BeI128, BeI16, BeI24, BeI32, BeI64, BeI8, BeU128, BeU16, BeU24, BeU32, BeU64, BeU8, I8, LeI128,
    LeI16, LeI24, LeI32, LeI64, LeI8, LeU128, LeU16, LeU24, LeU32, LeU64, LeU8, U8,
};
use winnow_token::token::impls::Take;
use winnow_token::token::take;

/// Checks the values of an integer parser, each with its bytes and one or more bytes that follow
/// (the first row has one), and how the parser ends on the proper prefixes of the first integer.
fn integer<I, O, E, P>(rt: &impl Abort, name: &str, mut parser: P, rows: &[(&'static [u8], O)])
where
    I: OfBytes,
    O: PartialEq + Debug + Copy,
    E: ParserError<I>,
    P: Parser<I, O, E> + Drop,
{
    if let Some((bytes, _)) = rows.first() {
        let width = bytes.len() - 1;
        for (bytes, value) in rows {
            let left = bytes.len() - width;
            answers::<I, O, E, P>(rt, name, &mut parser, bytes, *value, left);
        }
        for count in 0..width {
            let as_cut = lacks(width - count);
            ends::<I, O, E, P>(rt, name, &mut parser, &bytes[..count], BACKTRACKS, as_cut);
        }
        let all = &bytes[..width];
        ends::<I, O, E, P>(rt, name, &mut parser, all, Takes(width), Takes(width));
    }
}

/// Unsigned integers, the highest byte first.
fn unsigned_big<I: OfBytes, E: ParserError<I>>(rt: &impl Abort) {
    let rows = [
        (b"\x00\x3B".as_slice(), 0),
        (b"\xFF\x3B".as_slice(), 255),
        (b"\x80\x3B".as_slice(), 128),
        (b"\x11\x3B".as_slice(), 17),
        (b"\x11\x3B\x00\xC7", 17),
    ];
    integer::<I, _, E, _>(rt, "be_u8", BeU8, &rows);
    integer::<I, _, E, _>(rt, "u8", U8, &rows);
    let rows = [
        (b"\x00\x00\x3B".as_slice(), 0),
        (b"\xFF\xFF\x3B".as_slice(), 65535),
        (b"\x80\x00\x3B".as_slice(), 32768),
        (b"\x11\x27\x3B".as_slice(), 4391),
        (b"\x11\x27\x3B\x00\xC7", 4391),
    ];
    integer::<I, _, E, _>(rt, "be_u16", BeU16, &rows);
    integer::<I, _, E, _>(rt, "u16", chosen::u16(Endianness::Big), &rows);
    let rows = [
        (b"\x00\x00\x00\x3B".as_slice(), 0),
        (b"\xFF\xFF\xFF\x3B".as_slice(), 16777215),
        (b"\x80\x00\x00\x3B".as_slice(), 8388608),
        (b"\x11\x27\x47\x3B".as_slice(), 1124167),
        (b"\x11\x27\x47\x3B\x00\xC7", 1124167),
    ];
    integer::<I, _, E, _>(rt, "be_u24", BeU24, &rows);
    integer::<I, _, E, _>(rt, "u24", chosen::u24(Endianness::Big), &rows);
    let rows = [
        (b"\x00\x00\x00\x00\x3B".as_slice(), 0),
        (b"\xFF\xFF\xFF\xFF\x3B".as_slice(), 4294967295),
        (b"\x80\x00\x00\x00\x3B".as_slice(), 2147483648),
        (b"\x11\x27\x47\x71\x3B".as_slice(), 287786865),
        (b"\x11\x27\x47\x71\x3B\x00\xC7", 287786865),
    ];
    integer::<I, _, E, _>(rt, "be_u32", BeU32, &rows);
    integer::<I, _, E, _>(rt, "u32", chosen::u32(Endianness::Big), &rows);
    let rows = [
        (b"\x00\x00\x00\x00\x00\x00\x00\x00\x3B".as_slice(), 0),
        (b"\xFF\xFF\xFF\xFF\xFF\xFF\xFF\xFF\x3B".as_slice(), 18446744073709551615),
        (b"\x80\x00\x00\x00\x00\x00\x00\x00\x3B".as_slice(), 9223372036854775808),
        (b"\x11\x27\x47\x71\xA5\xE3\x2B\x7D\x3B".as_slice(), 1236035176176495485),
        (b"\x11\x27\x47\x71\xA5\xE3\x2B\x7D\x3B\x00\xC7", 1236035176176495485),
    ];
    integer::<I, _, E, _>(rt, "be_u64", BeU64, &rows);
    integer::<I, _, E, _>(rt, "u64", chosen::u64(Endianness::Big), &rows);
    let rows = [
        (b"\x00\x00\x00\x00\x00\x00\x00\x00\x00\x00\x00\x00\x00\x00\x00\x00\x3B".as_slice(), 0),
        (b"\xFF\xFF\xFF\xFF\xFF\xFF\xFF\xFF\xFF\xFF\xFF\xFF\xFF\xFF\xFF\xFF\x3B".as_slice(), 340282366920938463463374607431768211455),
        (b"\x80\x00\x00\x00\x00\x00\x00\x00\x00\x00\x00\x00\x00\x00\x00\x00\x3B".as_slice(), 170141183460469231731687303715884105728),
        (b"\x11\x27\x47\x71\xA5\xE3\x2B\x7D\xD9\x3F\xAF\x29\xAD\x3B\xD3\x75\x3B".as_slice(), 22800824561030309662178310900896486261),
        (b"\x11\x27\x47\x71\xA5\xE3\x2B\x7D\xD9\x3F\xAF\x29\xAD\x3B\xD3\x75\x3B\x00\xC7", 22800824561030309662178310900896486261),
    ];
    integer::<I, _, E, _>(rt, "be_u128", BeU128, &rows);
    integer::<I, _, E, _>(rt, "u128", chosen::u128(Endianness::Big), &rows);
}

/// Signed integers, the highest byte first.
fn signed_big<I: OfBytes, E: ParserError<I>>(rt: &impl Abort) {
    let rows = [
        (b"\x80\x3B".as_slice(), -128),
        (b"\x7F\x3B".as_slice(), 127),
        (b"\xFF\x3B".as_slice(), -1),
        (b"\x11\x3B".as_slice(), 17),
        (b"\x11\x3B\x00\xC7", 17),
    ];
    integer::<I, _, E, _>(rt, "be_i8", BeI8, &rows);
    integer::<I, _, E, _>(rt, "i8", I8, &rows);
    let rows = [
        (b"\x80\x00\x3B".as_slice(), -32768),
        (b"\x7F\xFF\x3B".as_slice(), 32767),
        (b"\xFF\xFF\x3B".as_slice(), -1),
        (b"\x11\x27\x3B".as_slice(), 4391),
        (b"\x11\x27\x3B\x00\xC7", 4391),
    ];
    integer::<I, _, E, _>(rt, "be_i16", BeI16, &rows);
    integer::<I, _, E, _>(rt, "i16", chosen::i16(Endianness::Big), &rows);
    let rows = [
        (b"\x80\x00\x00\x3B".as_slice(), -8388608),
        (b"\x7F\xFF\xFF\x3B".as_slice(), 8388607),
        (b"\xFF\xFF\xFF\x3B".as_slice(), -1),
        (b"\x11\x27\x47\x3B".as_slice(), 1124167),
        (b"\x11\x27\x47\x3B\x00\xC7", 1124167),
    ];
    integer::<I, _, E, _>(rt, "be_i24", BeI24, &rows);
    integer::<I, _, E, _>(rt, "i24", chosen::i24(Endianness::Big), &rows);
    let rows = [
        (b"\x80\x00\x00\x00\x3B".as_slice(), -2147483648),
        (b"\x7F\xFF\xFF\xFF\x3B".as_slice(), 2147483647),
        (b"\xFF\xFF\xFF\xFF\x3B".as_slice(), -1),
        (b"\x11\x27\x47\x71\x3B".as_slice(), 287786865),
        (b"\x11\x27\x47\x71\x3B\x00\xC7", 287786865),
    ];
    integer::<I, _, E, _>(rt, "be_i32", BeI32, &rows);
    integer::<I, _, E, _>(rt, "i32", chosen::i32(Endianness::Big), &rows);
    let rows = [
        (b"\x80\x00\x00\x00\x00\x00\x00\x00\x3B".as_slice(), -9223372036854775808),
        (b"\x7F\xFF\xFF\xFF\xFF\xFF\xFF\xFF\x3B".as_slice(), 9223372036854775807),
        (b"\xFF\xFF\xFF\xFF\xFF\xFF\xFF\xFF\x3B".as_slice(), -1),
        (b"\x11\x27\x47\x71\xA5\xE3\x2B\x7D\x3B".as_slice(), 1236035176176495485),
        (b"\x11\x27\x47\x71\xA5\xE3\x2B\x7D\x3B\x00\xC7", 1236035176176495485),
    ];
    integer::<I, _, E, _>(rt, "be_i64", BeI64, &rows);
    integer::<I, _, E, _>(rt, "i64", chosen::i64(Endianness::Big), &rows);
    let rows = [
        (b"\x80\x00\x00\x00\x00\x00\x00\x00\x00\x00\x00\x00\x00\x00\x00\x00\x3B".as_slice(), -170141183460469231731687303715884105728),
        (b"\x7F\xFF\xFF\xFF\xFF\xFF\xFF\xFF\xFF\xFF\xFF\xFF\xFF\xFF\xFF\xFF\x3B".as_slice(), 170141183460469231731687303715884105727),
        (b"\xFF\xFF\xFF\xFF\xFF\xFF\xFF\xFF\xFF\xFF\xFF\xFF\xFF\xFF\xFF\xFF\x3B".as_slice(), -1),
        (b"\x11\x27\x47\x71\xA5\xE3\x2B\x7D\xD9\x3F\xAF\x29\xAD\x3B\xD3\x75\x3B".as_slice(), 22800824561030309662178310900896486261),
        (b"\x11\x27\x47\x71\xA5\xE3\x2B\x7D\xD9\x3F\xAF\x29\xAD\x3B\xD3\x75\x3B\x00\xC7", 22800824561030309662178310900896486261),
    ];
    integer::<I, _, E, _>(rt, "be_i128", BeI128, &rows);
    integer::<I, _, E, _>(rt, "i128", chosen::i128(Endianness::Big), &rows);
}

/// Unsigned integers, the lowest byte first.
fn unsigned_little<I: OfBytes, E: ParserError<I>>(rt: &impl Abort) {
    let rows = [
        (b"\x00\x3B".as_slice(), 0),
        (b"\xFF\x3B".as_slice(), 255),
        (b"\x80\x3B".as_slice(), 128),
        (b"\x11\x3B".as_slice(), 17),
        (b"\x11\x3B\x00\xC7", 17),
    ];
    integer::<I, _, E, _>(rt, "le_u8", LeU8, &rows);
    integer::<I, _, E, _>(rt, "u8", U8, &rows);
    let rows = [
        (b"\x00\x00\x3B".as_slice(), 0),
        (b"\xFF\xFF\x3B".as_slice(), 65535),
        (b"\x00\x80\x3B".as_slice(), 32768),
        (b"\x11\x27\x3B".as_slice(), 10001),
        (b"\x11\x27\x3B\x00\xC7", 10001),
    ];
    integer::<I, _, E, _>(rt, "le_u16", LeU16, &rows);
    integer::<I, _, E, _>(rt, "u16", chosen::u16(Endianness::Little), &rows);
    integer::<I, _, E, _>(rt, "u16", chosen::u16(Endianness::Native), &rows);
    let rows = [
        (b"\x00\x00\x00\x3B".as_slice(), 0),
        (b"\xFF\xFF\xFF\x3B".as_slice(), 16777215),
        (b"\x00\x00\x80\x3B".as_slice(), 8388608),
        (b"\x11\x27\x47\x3B".as_slice(), 4663057),
        (b"\x11\x27\x47\x3B\x00\xC7", 4663057),
    ];
    integer::<I, _, E, _>(rt, "le_u24", LeU24, &rows);
    integer::<I, _, E, _>(rt, "u24", chosen::u24(Endianness::Little), &rows);
    integer::<I, _, E, _>(rt, "u24", chosen::u24(Endianness::Native), &rows);
    let rows = [
        (b"\x00\x00\x00\x00\x3B".as_slice(), 0),
        (b"\xFF\xFF\xFF\xFF\x3B".as_slice(), 4294967295),
        (b"\x00\x00\x00\x80\x3B".as_slice(), 2147483648),
        (b"\x11\x27\x47\x71\x3B".as_slice(), 1900488465),
        (b"\x11\x27\x47\x71\x3B\x00\xC7", 1900488465),
    ];
    integer::<I, _, E, _>(rt, "le_u32", LeU32, &rows);
    integer::<I, _, E, _>(rt, "u32", chosen::u32(Endianness::Little), &rows);
    integer::<I, _, E, _>(rt, "u32", chosen::u32(Endianness::Native), &rows);
    let rows = [
        (b"\x00\x00\x00\x00\x00\x00\x00\x00\x3B".as_slice(), 0),
        (b"\xFF\xFF\xFF\xFF\xFF\xFF\xFF\xFF\x3B".as_slice(), 18446744073709551615),
        (b"\x00\x00\x00\x00\x00\x00\x00\x80\x3B".as_slice(), 9223372036854775808),
        (b"\x11\x27\x47\x71\xA5\xE3\x2B\x7D\x3B".as_slice(), 9019552978449147665),
        (b"\x11\x27\x47\x71\xA5\xE3\x2B\x7D\x3B\x00\xC7", 9019552978449147665),
    ];
    integer::<I, _, E, _>(rt, "le_u64", LeU64, &rows);
    integer::<I, _, E, _>(rt, "u64", chosen::u64(Endianness::Little), &rows);
    integer::<I, _, E, _>(rt, "u64", chosen::u64(Endianness::Native), &rows);
    let rows = [
        (b"\x00\x00\x00\x00\x00\x00\x00\x00\x00\x00\x00\x00\x00\x00\x00\x00\x3B".as_slice(), 0),
        (b"\xFF\xFF\xFF\xFF\xFF\xFF\xFF\xFF\xFF\xFF\xFF\xFF\xFF\xFF\xFF\xFF\x3B".as_slice(), 340282366920938463463374607431768211455),
        (b"\x00\x00\x00\x00\x00\x00\x00\x00\x00\x00\x00\x00\x00\x00\x00\x80\x3B".as_slice(), 170141183460469231731687303715884105728),
        (b"\x11\x27\x47\x71\xA5\xE3\x2B\x7D\xD9\x3F\xAF\x29\xAD\x3B\xD3\x75\x3B".as_slice(), 156616460525525485117809923033554954001),
        (b"\x11\x27\x47\x71\xA5\xE3\x2B\x7D\xD9\x3F\xAF\x29\xAD\x3B\xD3\x75\x3B\x00\xC7", 156616460525525485117809923033554954001),
    ];
    integer::<I, _, E, _>(rt, "le_u128", LeU128, &rows);
    integer::<I, _, E, _>(rt, "u128", chosen::u128(Endianness::Little), &rows);
    integer::<I, _, E, _>(rt, "u128", chosen::u128(Endianness::Native), &rows);
}

/// Signed integers, the lowest byte first.
fn signed_little<I: OfBytes, E: ParserError<I>>(rt: &impl Abort) {
    let rows = [
        (b"\x80\x3B".as_slice(), -128),
        (b"\x7F\x3B".as_slice(), 127),
        (b"\xFF\x3B".as_slice(), -1),
        (b"\x11\x3B".as_slice(), 17),
        (b"\x11\x3B\x00\xC7", 17),
    ];
    integer::<I, _, E, _>(rt, "le_i8", LeI8, &rows);
    integer::<I, _, E, _>(rt, "i8", I8, &rows);
    let rows = [
        (b"\x00\x80\x3B".as_slice(), -32768),
        (b"\xFF\x7F\x3B".as_slice(), 32767),
        (b"\xFF\xFF\x3B".as_slice(), -1),
        (b"\x11\x27\x3B".as_slice(), 10001),
        (b"\x11\x27\x3B\x00\xC7", 10001),
    ];
    integer::<I, _, E, _>(rt, "le_i16", LeI16, &rows);
    integer::<I, _, E, _>(rt, "i16", chosen::i16(Endianness::Little), &rows);
    integer::<I, _, E, _>(rt, "i16", chosen::i16(Endianness::Native), &rows);
    let rows = [
        (b"\x00\x00\x80\x3B".as_slice(), -8388608),
        (b"\xFF\xFF\x7F\x3B".as_slice(), 8388607),
        (b"\xFF\xFF\xFF\x3B".as_slice(), -1),
        (b"\x11\x27\x47\x3B".as_slice(), 4663057),
        (b"\x11\x27\x47\x3B\x00\xC7", 4663057),
    ];
    integer::<I, _, E, _>(rt, "le_i24", LeI24, &rows);
    integer::<I, _, E, _>(rt, "i24", chosen::i24(Endianness::Little), &rows);
    integer::<I, _, E, _>(rt, "i24", chosen::i24(Endianness::Native), &rows);
    let rows = [
        (b"\x00\x00\x00\x80\x3B".as_slice(), -2147483648),
        (b"\xFF\xFF\xFF\x7F\x3B".as_slice(), 2147483647),
        (b"\xFF\xFF\xFF\xFF\x3B".as_slice(), -1),
        (b"\x11\x27\x47\x71\x3B".as_slice(), 1900488465),
        (b"\x11\x27\x47\x71\x3B\x00\xC7", 1900488465),
    ];
    integer::<I, _, E, _>(rt, "le_i32", LeI32, &rows);
    integer::<I, _, E, _>(rt, "i32", chosen::i32(Endianness::Little), &rows);
    integer::<I, _, E, _>(rt, "i32", chosen::i32(Endianness::Native), &rows);
    let rows = [
        (b"\x00\x00\x00\x00\x00\x00\x00\x80\x3B".as_slice(), -9223372036854775808),
        (b"\xFF\xFF\xFF\xFF\xFF\xFF\xFF\x7F\x3B".as_slice(), 9223372036854775807),
        (b"\xFF\xFF\xFF\xFF\xFF\xFF\xFF\xFF\x3B".as_slice(), -1),
        (b"\x11\x27\x47\x71\xA5\xE3\x2B\x7D\x3B".as_slice(), 9019552978449147665),
        (b"\x11\x27\x47\x71\xA5\xE3\x2B\x7D\x3B\x00\xC7", 9019552978449147665),
    ];
    integer::<I, _, E, _>(rt, "le_i64", LeI64, &rows);
    integer::<I, _, E, _>(rt, "i64", chosen::i64(Endianness::Little), &rows);
    integer::<I, _, E, _>(rt, "i64", chosen::i64(Endianness::Native), &rows);
    let rows = [
        (b"\x00\x00\x00\x00\x00\x00\x00\x00\x00\x00\x00\x00\x00\x00\x00\x80\x3B".as_slice(), -170141183460469231731687303715884105728),
        (b"\xFF\xFF\xFF\xFF\xFF\xFF\xFF\xFF\xFF\xFF\xFF\xFF\xFF\xFF\xFF\x7F\x3B".as_slice(), 170141183460469231731687303715884105727),
        (b"\xFF\xFF\xFF\xFF\xFF\xFF\xFF\xFF\xFF\xFF\xFF\xFF\xFF\xFF\xFF\xFF\x3B".as_slice(), -1),
        (b"\x11\x27\x47\x71\xA5\xE3\x2B\x7D\xD9\x3F\xAF\x29\xAD\x3B\xD3\x75\x3B".as_slice(), 156616460525525485117809923033554954001),
        (b"\x11\x27\x47\x71\xA5\xE3\x2B\x7D\xD9\x3F\xAF\x29\xAD\x3B\xD3\x75\x3B\x00\xC7", 156616460525525485117809923033554954001),
    ];
    integer::<I, _, E, _>(rt, "le_i128", LeI128, &rows);
    integer::<I, _, E, _>(rt, "i128", chosen::i128(Endianness::Little), &rows);
    integer::<I, _, E, _>(rt, "i128", chosen::i128(Endianness::Native), &rows);
}

#[test]
fn integers(rt: HostRuntime) {
    at_bytes!(rt; unsigned_big, signed_big, unsigned_little, signed_little);
    unsigned_big::<LocatingSlice<&[u8]>, Modal>(&rt);
    signed_little::<Partial<LocatingSlice<&[u8]>>, Modal>(&rt);
}

/// The integer examples of the project's documents.
fn integers_of_rows<I: OfBytes, E: ParserError<I>>(rt: &impl Abort) {
    integer::<I, _, E, _>(rt, "le_u16", LeU16, &[(b"ab;".as_slice(), 25185)]);
    integer::<I, _, E, _>(rt, "be_u16", BeU16, &[(b"ab;".as_slice(), 24930)]);
    integer::<I, _, E, _>(rt, "be_i24", BeI24, &[(b"\xFF\xFF\xFE;".as_slice(), -2)]);
    integer::<I, _, E, _>(rt, "le_i24", LeI24, &[(b"\xFE\xFF\xFF;".as_slice(), -2)]);
    integer::<I, _, E, _>(rt, "be_i8", BeI8, &[(b"\x80;".as_slice(), -128)]);
    let native = chosen::u16(Endianness::Native);
    integer::<I, _, E, _>(rt, "u16(Native)", native, &[(b"\x01\x02;".as_slice(), 513)]);
    let fifteen = b"123456789012345".as_slice();
    ends::<I, _, E, _>(rt, "be_u128", &mut BeU128, fifteen, BACKTRACKS, lacks(1));
}

#[test]
fn integers_as_documented(rt: HostRuntime) {
    at_bytes!(rt; integers_of_rows);
}

/// A sequence on every prefix of a sample, and with a different last part.
fn sequence<I, S, E>(rt: &impl Abort)
where
    I: OfBytes + Compare<&'static str> + Stream<Slice = S>,
    S: Drop,
    E: ParserError<I>,
{
    let name = "(be_u16, take(3), \"fg\")";
    let mut parser = (BeU16, take::<u8, I, E>(3), "fg");
    let lacks_behind = |units: usize, taken: usize| {
        fails_behind(Incomplete(Needed::new(units)), taken)
    };
    let rows = [
        (BACKTRACKS, lacks(2)),
        (BACKTRACKS, lacks(1)),
        (fails_behind(Backtrack, 2), lacks_behind(3, 2)),
        (fails_behind(Backtrack, 2), lacks_behind(2, 2)),
        (fails_behind(Backtrack, 2), lacks_behind(1, 2)),
        (fails_behind(Backtrack, 5), lacks_behind(0, 5)),
        (fails_behind(Backtrack, 5), lacks_behind(0, 5)),
        (Takes(7), Takes(7)),
        (Takes(7), Takes(7)),
    ];
    sweep::<I, _, E, _>(rt, name, &mut parser, b"abcdefgh", &rows);
    let other = fails_behind(Backtrack, 5);
    ends::<I, _, E, _>(rt, name, &mut parser, b"abcdejk", other, other);
}

#[test]
fn integers_in_a_sequence(rt: HostRuntime) {
    sequence::<&[u8], _, Modal>(&rt);
    sequence::<Partial<&[u8]>, _, Modal>(&rt);
    let mut parser = (BeU16, take::<u8, Partial<&'static [u8]>, Modal>(3), "fg");
    let input = Partial::new(b"abcdefgh".as_slice());
    let got = outcome_of::<_, _, Modal, _>(&mut parser, input);
    let want = (24930, b"cde".as_slice(), b"fg".as_slice());
    agree(&rt, "be_u16", b"abcdefgh", got, (Ok(want), Partial::new(b"h".as_slice())));
}

/// A length, and a parser that is made by it.
#[test]
fn flat_map_of_integers(rt: HostRuntime) {
    let name = "u8.flat_map(take)";
    let made = |count: u8| {
        let parser: Take<&[u8], Modal> = take(count);
        parser
    };
    let mut parser = Parser::<&[u8], u8, Modal>::flat_map(U8, made);
    for (bytes, want, rest) in [
        (b"\x02ABC".as_slice(), Ok(b"AB".as_slice()), b"C".as_slice()),
        (b"\x03A", Err(Backtrack), b"A"),
    ] {
        let got = outcome_of::<&[u8], &[u8], Modal, _>(&mut parser, bytes);
        agree(&rt, name, bytes, got, (want, rest));
    }
}

#[test]
fn endianness(rt: HostRuntime) -> Result<(), Fail> {
    let all = [Endianness::Big, Endianness::Little, Endianness::Native];
    for (i, order) in all.into_iter().enumerate() {
        let copied = order;
        assert_eq!(rt; copied, order);
        assert_eq!(rt; order.clone()?, order);
        for (j, other) in all.into_iter().enumerate() {
            assert_eq!(rt; order == other, i == j, "{order:?} and {other:?}");
        }
    }
    let shown = format!(in rt.alloc(); "{all:?}")?;
    assert_eq!(rt; shown.as_str(), "[Big, Little, Native]");
    Ok(())
}
