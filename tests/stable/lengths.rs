//! Length-prefixed data on every prefix of samples.
use crate::samples::settles_from;
use crate::settling::Bytes;
use std::alloc::Global;
use test_support::outcomes::Kind::{Backtrack, Cut};
use test_support::rows::Modal;
use winnow_ascii::ascii::impls::Digit1;
use winnow_binary::binary::impls::{LengthAndThen, LengthRepeat, LengthTake};
use winnow_binary::binary::{length_and_then, length_repeat, length_take};
use winnow_comb::combinator::impls::Empty;
use winnow_core::combinator::impls::Eof;
use winnow_integers::binary::impls::{BeU16, U8};
use winnow_token::token::impls::{Any, Rest};

/// A repetition that counts its items.
type Counted<P, O> = LengthRepeat<U8, P, Bytes, u8, O, usize, Modal, Global>;

#[test]
fn length_take_on_all_cuts(rt: HostRuntime) {
    let sample = b"\x03abcde".as_slice();
    let parser: LengthTake<U8, Bytes, u8, Modal> = length_take(U8);
    settles_from(&rt, "length_take", parser, sample, (4, Ok(b"abc".as_slice()), 4));
    let parser: LengthTake<BeU16, Bytes, u16, Modal> = length_take(BeU16);
    let sample = b"\x00\x01abc".as_slice();
    settles_from(&rt, "length_take", parser, sample, (3, Ok(b"a".as_slice()), 3));
    let parser: LengthTake<U8, Bytes, u8, Modal> = length_take(U8);
    settles_from(&rt, "length_take", parser, b"\x00ab", (1, Ok(b"".as_slice()), 1));
}

/// The taken bytes are complete input: no parser of them, stable or not, returns `Incomplete`.
#[test]
fn length_and_then_on_all_cuts(rt: HostRuntime) {
    let parser: LengthAndThen<U8, Digit1, Bytes, u8, &[u8], Modal> = length_and_then(U8, Digit1);
    let want = (3, Ok(b"1".as_slice()), 3);
    settles_from(&rt, "length_and_then", parser, b"\x021AB", want);
    let parser: LengthAndThen<U8, Digit1, Bytes, u8, &[u8], Modal> = length_and_then(U8, Digit1);
    settles_from(&rt, "length_and_then", parser, b"\x02ABC", (3, Err(Backtrack), 3));
    let parser: LengthAndThen<U8, Digit1, Bytes, u8, &[u8], Modal> = length_and_then(U8, Digit1);
    let want = (3, Ok(b"12".as_slice()), 3);
    settles_from(&rt, "length_and_then", parser, b"\x021234", want);
    let parser: LengthAndThen<U8, Rest, Bytes, u8, &[u8], Modal> = length_and_then(U8, Rest);
    let want = (4, Ok(b"abc".as_slice()), 4);
    settles_from(&rt, "length_and_then", parser, b"\x03abcde", want);
    let parser: LengthAndThen<U8, Eof, Bytes, u8, &[u8], Modal> = length_and_then(U8, Eof);
    settles_from(&rt, "length_and_then", parser, b"\x01ab", (2, Err(Backtrack), 2));
}

#[test]
fn length_repeat_on_all_cuts(rt: HostRuntime) {
    let alloc = rt.alloc();
    let parser: Counted<BeU16, u16> = length_repeat(alloc, U8, BeU16);
    settles_from(&rt, "length_repeat", parser, b"\x02\x00\x01\x00\x02;;", (5, Ok(2), 5));
    let parser: Counted<BeU16, u16> = length_repeat(alloc, U8, BeU16);
    settles_from(&rt, "length_repeat", parser, b"\x00\x00\x01", (1, Ok(0), 1));
    let parser: Counted<Empty, ()> = length_repeat(alloc, U8, Empty);
    settles_from(&rt, "length_repeat", parser, b"\x01ab", (1, Err(Cut), 1));
    let parser: Counted<u8, u8> = length_repeat(alloc, U8, b'a');
    settles_from(&rt, "length_repeat", parser, b"\x03aabb", (4, Err(Backtrack), 3));
    let text: LengthTake<U8, Bytes, u8, Modal> = length_take(U8);
    let parser: Counted<LengthTake<U8, Bytes, u8, Modal>, &[u8]> = length_repeat(alloc, U8, text);
    settles_from(&rt, "length_repeat", parser, b"\x02\x01a\x02bcd", (6, Ok(2), 6));
    let parser: Counted<Any, u8> = length_repeat(alloc, U8, Any);
    settles_from(&rt, "length_repeat", (parser, BeU16), b"\x01a\x00\x02b", (4, Ok((1, 2)), 4));
}
