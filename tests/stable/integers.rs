//! Integers as bytes on every prefix of two samples. The expected values are those of Python's
//! `int.from_bytes`.
use crate::samples::settles_from;
use crate::settling::Bytes;
use std::fmt::Debug;
use std::process::Abort;
use test_support::rows::Modal;
use winnow_binary::binary as chosen;
use winnow_core::parser::Parser;
use winnow_integers::binary::Endianness::{Big, Little, Native};
use winnow_integers::binary::impls::{
    BeI128, BeI16, BeI24, BeI32, BeI64, BeI8, BeU128, BeU16, BeU24, BeU32, BeU64, BeU8, I8, LeI128,
    LeI16, LeI24, LeI32, LeI64, LeI8, LeU128, LeU16, LeU24, LeU32, LeU64, LeU8, U8,
};

/// 1 to 18.
const UP: &[u8] = b"\x01\x02\x03\x04\x05\x06\x07\x08\x09\x0A\x0B\x0C\x0D\x0E\x0F\x10\x11\x12";

/// 255 down to 238.
const DOWN: &[u8] = b"\xFF\xFE\xFD\xFC\xFB\xFA\xF9\xF8\xF7\xF6\xF5\xF4\xF3\xF2\xF1\xF0\xEF\xEE";

/// Checks an unsigned integer of `width` bytes.
fn unsigned<O, P>(rt: &impl Abort, name: &str, parser: P, width: usize, value: O)
where
    O: PartialEq + Debug + Drop + Copy,
    P: Parser<Bytes, O, Modal> + Drop,
{
    settles_from(rt, name, parser, UP, (width, Ok(value), width));
}

/// A signed one.
fn signed<O, P>(rt: &impl Abort, name: &str, parser: P, width: usize, value: O)
where
    O: PartialEq + Debug + Drop + Copy,
    P: Parser<Bytes, O, Modal> + Drop,
{
    settles_from(rt, name, parser, DOWN, (width, Ok(value), width));
}

#[test]
fn unsigned_integers_on_all_cuts(rt: HostRuntime) {
    unsigned(&rt, "u8", U8, 1, 1);
    unsigned(&rt, "be_u8", BeU8, 1, 1);
    unsigned(&rt, "be_u16", BeU16, 2, 0x0102);
    unsigned(&rt, "be_u24", BeU24, 3, 0x010203);
    unsigned(&rt, "be_u32", BeU32, 4, 0x01020304);
    unsigned(&rt, "be_u64", BeU64, 8, 0x0102030405060708);
    unsigned(&rt, "be_u128", BeU128, 16, 0x0102030405060708090A0B0C0D0E0F10);
    unsigned(&rt, "le_u8", LeU8, 1, 1);
    unsigned(&rt, "le_u16", LeU16, 2, 0x0201);
    unsigned(&rt, "le_u24", LeU24, 3, 0x030201);
    unsigned(&rt, "le_u32", LeU32, 4, 0x04030201);
    unsigned(&rt, "le_u64", LeU64, 8, 0x0807060504030201);
    unsigned(&rt, "le_u128", LeU128, 16, 0x100F0E0D0C0B0A090807060504030201);
}

#[test]
fn signed_integers_on_all_cuts(rt: HostRuntime) {
    signed(&rt, "i8", I8, 1, -1);
    signed(&rt, "be_i8", BeI8, 1, -1);
    signed(&rt, "be_i16", BeI16, 2, -2);
    signed(&rt, "be_i24", BeI24, 3, -0x0103);
    signed(&rt, "be_i32", BeI32, 4, -0x010204);
    signed(&rt, "be_i64", BeI64, 8, -0x01020304050608);
    signed(&rt, "be_i128", BeI128, 16, -0x0102030405060708090A0B0C0D0E10);
    signed(&rt, "le_i8", LeI8, 1, -1);
    signed(&rt, "le_i16", LeI16, 2, -0x0101);
    signed(&rt, "le_i24", LeI24, 3, -0x020101);
    signed(&rt, "le_i32", LeI32, 4, -0x03020101);
    signed(&rt, "le_i64", LeI64, 8, -0x0706050403020101);
    signed(&rt, "le_i128", LeI128, 16, -0x0F0E0D0C0B0A09080706050403020101);
}

#[test]
fn chosen_integers_on_all_cuts(rt: HostRuntime) {
    unsigned(&rt, "u16", chosen::u16(Big), 2, 0x0102);
    unsigned(&rt, "u24", chosen::u24(Little), 3, 0x030201);
    unsigned(&rt, "u32", chosen::u32(Native), 4, 0x04030201);
    unsigned(&rt, "u64", chosen::u64(Big), 8, 0x0102030405060708);
    unsigned(&rt, "u128", chosen::u128(Little), 16, 0x100F0E0D0C0B0A090807060504030201);
    signed(&rt, "i16", chosen::i16(Native), 2, -0x0101);
    signed(&rt, "i24", chosen::i24(Big), 3, -0x0103);
    signed(&rt, "i32", chosen::i32(Little), 4, -0x03020101);
    signed(&rt, "i64", chosen::i64(Native), 8, -0x0706050403020101);
    signed(&rt, "i128", chosen::i128(Big), 16, -0x0102030405060708090A0B0C0D0E10);
}
