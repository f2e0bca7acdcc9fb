//! Bytes and bits.
use winnow::Func;
use winnow::ascii::impls::Alpha1;
use winnow::binary::bits;
use winnow::binary::bits::{BitOutput, Bits};
use winnow::binary::impls::U8;
use winnow::binary::{Endianness, be_u16, length_and_then, u16};
use winnow::error::{EmptyError, ErrMode, Needed};
use winnow::prelude::*;
use winnow::stream::ByteStream;
use winnow::token::impls::Rest;

type Fails = ErrMode<EmptyError>;

#[test]
fn wide_bits_are_an_error(rt: HostRuntime) {
    let mut input = Bits(b"\x12\x34".as_slice(), 0);
    let read: Result<u8, Fails> = bits::take(9_usize).parse_next(&mut input);
    assert!(rt; matches!(read, Err(ErrMode::Cut(_))));
    let mut input = Bits(b"".as_slice(), 0);
    let read: Result<u8, Fails> = bits::take(9_usize).parse_next(&mut input);
    assert!(rt; matches!(read, Err(ErrMode::Cut(_))));
}

#[test]
fn impossible_bits_are_an_error(rt: HostRuntime) {
    let mut input = Bits(b"a".as_slice(), 8);
    assert!(rt; !input.is_possible());
    let read: Result<u8, Fails> = bits::take(1_usize).parse_next(&mut input);
    assert!(rt; matches!(read, Err(ErrMode::Cut(_))));
}

fn asking(_input: &mut &[u8]) -> Result<u8, Fails> {
    Err(ErrMode::Incomplete(Needed::new(usize::MAX)))
}

#[test]
fn large_needs_are_unknown(rt: HostRuntime) {
    let mut input = Bits(b"ab".as_slice(), 4);
    let mut byte = bits::bytes::<_, u8, Fails, _, _>(Func(asking));
    let read: Result<u8, Fails> = byte.parse_next(&mut input);
    assert_eq!(rt; read, Err(ErrMode::Incomplete(Needed::Unknown)));
}

#[test]
fn native_is_little(rt: HostRuntime) {
    let mut input = b"\x01\x00".as_slice();
    let read: Result<u16, Fails> = u16(Endianness::Native).parse_next(&mut input);
    assert_eq!(rt; read.ok(), Some(1));
}

#[test]
fn lengths_of_bits(rt: HostRuntime) {
    let mut input = Bits(b"\x01\xAB\xCD".as_slice(), 0);
    let mut bytes = bits::bytes::<_, &[u8], Fails, _, _>(length_and_then(U8, Rest));
    let read: Result<&[u8], Fails> = bytes.parse_next(&mut input);
    assert_eq!(rt; read.ok(), Some(b"\xAB".as_slice()));
}

fn two<I: ByteStream + StreamIsPartial, E: ParserError<I>>(input: &mut I) -> Result<u16, E> {
    be_u16(input)
}

#[test]
fn integers_need_bytes(rt: HostRuntime) {
    assert_eq!(rt; two::<&[u8], Fails>(&mut b"\x01\x02".as_slice()).ok(), Some(0x102));
}

#[test]
fn bits_are_pushed(rt: HostRuntime) {
    assert_eq!(rt; u8::default().push_bit(true).push_bits(3, 4), 19);
}

#[test]
fn bytes_are_slices(rt: HostRuntime) {
    let mut input = b"ab1".as_slice();
    let read: Result<&[u8], Fails> = Alpha1.parse_next(&mut input);
    assert_eq!(rt; read.ok(), Some(b"ab".as_slice()));
}
