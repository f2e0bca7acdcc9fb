//! The parsers of bits, and of bytes as bits and back, on every prefix of samples.
use crate::samples::{settles_from, settles_in_bits};
use crate::settling::Bytes;
use test_support::outcomes::Kind::{Backtrack, Cut};
use test_support::rows::Modal;
use winnow_bits::bits::impls::{BitsParser, Bool, Bytes as BytesOf, Pattern, Take};
use winnow_bits::bits::{bits, bytes, pattern, take};
use winnow_integers::binary::impls::BeU16;
use winnow_token::token::impls::Any;

/// A take into a number.
type TakeTo<O> = Take<Bytes, O, Modal>;

/// A parser of bits on bytes.
type InBits<P, O> = BitsParser<P, Bytes, O, Modal, Modal>;

/// A parser of bytes on bits.
type InBytes<P, O> = BytesOf<P, Bytes, O, Modal, Modal>;

#[test]
fn take_of_bits_on_all_cuts(rt: HostRuntime) {
    let sample = b"\xAB\xCD\xEF".as_slice();
    let parser: TakeTo<u16> = take(12_u8);
    settles_in_bits(&rt, "take", parser, sample, 0, (2, Ok(0xABC), 12));
    let parser: TakeTo<u16> = take(12_u8);
    settles_in_bits(&rt, "take", parser, sample, 4, (2, Ok(0xBCD), 12));
    let parser: TakeTo<u16> = take(13_u8);
    settles_in_bits(&rt, "take", parser, sample, 4, (3, Ok(0x179B), 13));
    let parser: TakeTo<u8> = take(0_u8);
    settles_in_bits(&rt, "take", parser, sample, 0, (0, Ok(0), 0));
    let parser: TakeTo<u8> = take(9_u8);
    settles_in_bits(&rt, "take", parser, sample, 0, (0, Err(Cut), 0));
}

#[test]
fn pattern_on_all_cuts(rt: HostRuntime) {
    let sample = b"\xAB\xCD".as_slice();
    let parser: Pattern<Bytes, u8, Modal> = pattern(0xA, 4_u8);
    settles_in_bits(&rt, "pattern", parser, sample, 0, (1, Ok(0xA), 4));
    let parser: Pattern<Bytes, u8, Modal> = pattern(0xB, 4_u8);
    settles_in_bits(&rt, "pattern", parser, sample, 0, (1, Err(Backtrack), 0));
    let parser: Pattern<Bytes, u8, Modal> = pattern(0xBC, 8_u8);
    settles_in_bits(&rt, "pattern", parser, sample, 4, (2, Ok(0xBC), 8));
}

#[test]
fn bool_on_all_cuts(rt: HostRuntime) {
    settles_in_bits(&rt, "bool", Bool, b"\x80\x01", 0, (1, Ok(true), 1));
    settles_in_bits(&rt, "bool", Bool, b"\x80\x01", 7, (1, Ok(false), 1));
    let sample = b"\xFE\x80".as_slice();
    settles_in_bits(&rt, "bool", (Bool, Bool), sample, 7, (2, Ok((false, true)), 2));
}

#[test]
fn bits_on_all_cuts(rt: HostRuntime) {
    let parser: InBits<TakeTo<u16>, u16> = bits(take(12_u8));
    settles_from(&rt, "bits", parser, b"\xAB\xCD\xEF", (2, Ok(0xABC), 2));
    let parser: InBits<TakeTo<u8>, u8> = bits(take(4_u8));
    settles_from(&rt, "bits", parser, b"\xAB\xCD", (1, Ok(0xA), 1));
    let parser: InBits<(TakeTo<u8>, TakeTo<u8>), (u8, u8)> = bits((take(4_u8), take(8_u8)));
    settles_from(&rt, "bits", parser, b"\x12\x34\x56", (2, Ok((1, 0x23)), 2));
    let parser: InBits<(TakeTo<u8>, Pattern<Bytes, u8, Modal>), (u8, u8)> = bits((
        take(7_u8),
        pattern(0, 2_u8),
    ));
    settles_from(&rt, "bits", parser, b"\x12\xB4\x56", (2, Err(Backtrack), 0));
    let parser: InBits<TakeTo<u8>, u8> = bits(take(9_u8));
    settles_from(&rt, "bits", parser, b"\x12", (0, Err(Cut), 0));
    let parser: InBits<TakeTo<u8>, u8> = bits(take(4_u8));
    settles_from(&rt, "bits", (parser, BeU16), b"\xAB\x01\x02\x03", (3, Ok((0xA, 0x0102)), 3));
}

#[test]
fn bytes_on_all_cuts(rt: HostRuntime) {
    let parser: InBytes<BeU16, u16> = bytes(BeU16);
    settles_in_bits(&rt, "bytes", parser, b"\xAB\xCD\xEF\x01", 4, (3, Ok(0xCDEF), 20));
    let parser: InBytes<BeU16, u16> = bytes(BeU16);
    settles_in_bits(&rt, "bytes", parser, b"\xAB\xCD\xEF\x01", 0, (2, Ok(0xABCD), 16));
    let parser: InBytes<u8, u8> = bytes(0xCD_u8);
    settles_in_bits(&rt, "bytes", parser, b"\xAB\xCE\xEF", 4, (2, Err(Backtrack), 0));
    let parser: InBytes<Any, u8> = bytes(Any);
    let fields = (Bool, parser, Bool);
    settles_in_bits(&rt, "bytes", fields, b"\x80\x12\x80", 0, (3, Ok((true, 0x12, true)), 17));
}

/// Bytes inside bits that are run on bytes, and the other way round.
#[test]
fn bits_and_bytes_on_all_cuts(rt: HostRuntime) {
    let byte: InBytes<Any, u8> = bytes(Any);
    let parser: InBits<(TakeTo<u8>, InBytes<Any, u8>, Bool), (u8, u8, bool)> = bits((
        take(4_u8),
        byte,
        Bool,
    ));
    settles_from(&rt, "bits", parser, b"\x12\x34\x56\x78", (3, Ok((1, 0x34, false)), 3));
    let field: InBits<TakeTo<u8>, u8> = bits(take(4_u8));
    let parser: BytesOf<InBits<TakeTo<u8>, u8>, Bytes, u8, Modal, Modal> = bytes(field);
    settles_in_bits::<u8, _>(&rt, "bytes", parser, b"\xAB\xCD\xEF", 4, (2, Ok(0xC), 12));
}
