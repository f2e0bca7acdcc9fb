//! An input that comes byte by byte.
use crate::common::AtBytes;
use std::process::Abort;
use stream_errors::parser_error::ParserError;
use stream_searches::compare::Compare;
use streams::byte_stream::ByteStream;
use streams::locating::LocatingSlice;
use streams::needed::Needed;
use streams::partial::Partial;
use streams::stream::{Stream, StreamIsPartial};
use test_support::outcomes::Kind::{self, Backtrack, Incomplete};
use test_support::outcomes::outcome_of;
use test_support::rows::Modal;
use winnow_ascii::ascii::impls::LineEnding;
use winnow_binary::binary;
use winnow_binary::binary::impls::LengthTake;
use winnow_integers::binary::impls::{BeU16, U8};

/// A number, three bytes after their length, and a line ending.
const ALL: [u8; 8] = [0x00, 0x2A, 0x03, 0x61, 0x62, 0x63, 0x0D, 0x0A];

/// The output of the parser.
type Message<'b> = (u16, &'b [u8], &'b [u8]);

/// Bytes as a stream.
trait OfBytes<'b>: StreamIsPartial + ByteStream + Stream<Slice = &'b [u8]> {
    fn of_bytes(bytes: &'b [u8]) -> Self;
}

impl<'b> OfBytes<'b> for &'b [u8] {
    fn of_bytes(bytes: &'b [u8]) -> &'b [u8] {
        bytes
    }
}

impl<'b, I: OfBytes<'b>> OfBytes<'b> for Partial<I> {
    fn of_bytes(bytes: &'b [u8]) -> Partial<I> {
        Partial::new(I::of_bytes(bytes))
    }
}

impl<'b, I: OfBytes<'b>> OfBytes<'b> for LocatingSlice<I> {
    fn of_bytes(bytes: &'b [u8]) -> LocatingSlice<I> {
        LocatingSlice::new(I::of_bytes(bytes))
    }
}

/// Returns the result on a stream, and the number of consumed bytes.
fn read<'b, I, E>(mut input: I, is_complete: bool) -> (Result<Message<'b>, Kind>, usize)
where
    I: OfBytes<'b> + Compare<&'static str>,
    E: ParserError<I>,
{
    if is_complete {
        let _state = input.complete();
    }
    let before = input.eof_offset();
    let data: LengthTake<U8, I, u8, E> = binary::length_take(U8);
    let mut parser = (BeU16, data, LineEnding);
    let (answer, rest) = outcome_of::<I, Message<'b>, E, _>(&mut parser, input);
    (answer, before - rest.eof_offset())
}

/// A need of `units` more bytes.
fn lacks(units: usize) -> Result<Message<'static>, Kind> {
    Err(Incomplete(Needed::new(units)))
}

/// The need of every proper prefix as partial input.
fn asks_for_more<I, E>(rt: &impl Abort)
where
    I: OfBytes<'static> + Compare<&'static str>,
    E: ParserError<I>,
{
    let unknown = Err(Incomplete(Needed::Unknown));
    let rows = [
        (lacks(2), 0),
        (lacks(1), 0),
        (lacks(1), 2),
        (lacks(3), 3),
        (lacks(2), 3),
        (lacks(1), 3),
        (unknown, 6),
        (unknown, 6),
        (Ok((42, b"abc".as_slice(), b"\r\n".as_slice())), 8),
    ];
    for (count, want) in rows.into_iter().enumerate() {
        let got = read::<I, E>(I::of_bytes(&ALL.as_slice()[..count]), false);
        assert_eq!(rt; got, want, "the first {count} bytes, cut");
    }
}

/// Every proper prefix as complete input is a backtrack, at the start of the part that is
/// incomplete.
fn backtracks<I, E>(rt: &impl Abort)
where
    I: OfBytes<'static> + Compare<&'static str>,
    E: ParserError<I>,
{
    for (count, taken) in [0, 0, 2, 3, 3, 3, 6, 6].into_iter().enumerate() {
        let got = read::<I, E>(I::of_bytes(&ALL.as_slice()[..count]), true);
        assert_eq!(rt;
            got,
            (Err(Backtrack), taken),
            "the first {count} bytes, whole"
        );
    }
    let got = read::<I, E>(I::of_bytes(ALL.as_slice()), true);
    let want = (Ok((42, b"abc".as_slice(), b"\r\n".as_slice())), 8);
    assert_eq!(rt; got, want, "all bytes, whole");
}

/// The bytes that follow do not change the result, nor the number of consumed bytes.
fn leaves_the_rest<'b, I, E>(rt: &impl Abort, bytes: &'b [u8])
where
    I: OfBytes<'b> + Compare<&'static str>,
    E: ParserError<I>,
{
    let want = (Ok((42, b"abc".as_slice(), b"\r\n".as_slice())), 8);
    for is_complete in [false, true] {
        let got = read::<I, E>(I::of_bytes(bytes), is_complete);
        assert_eq!(rt; got, want, "{bytes:?}");
    }
}

#[test]
fn each_beginning_of_a_message(rt: HostRuntime) {
    asks_for_more::<Partial<&[u8]>, Modal>(&rt);
    asks_for_more::<Partial<LocatingSlice<&[u8]>>, Modal>(&rt);
    backtracks::<Partial<&[u8]>, Modal>(&rt);
    backtracks::<&[u8], AtBytes>(&rt);
    backtracks::<LocatingSlice<&[u8]>, Modal>(&rt);
}

/// Every byte after the message, and every prefix of a second one.
#[test]
fn a_message_and_more(rt: HostRuntime) {
    let mut longer = [0x00, 0x2A, 0x03, 0x61, 0x62, 0x63, 0x0D, 0x0A, 0];
    for byte in 0..=u8::MAX {
        longer[8] = byte;
        leaves_the_rest::<Partial<&[u8]>, Modal>(&rt, longer.as_slice());
        leaves_the_rest::<&[u8], Modal>(&rt, longer.as_slice());
    }
    let two = b"\x00\x2A\x03abc\r\n\x00\x2A\x03abc\r\n".as_slice();
    for count in 8..=two.len() {
        leaves_the_rest::<Partial<&[u8]>, Modal>(&rt, &two[..count]);
        leaves_the_rest::<Partial<LocatingSlice<&[u8]>>, Modal>(&rt, &two[..count]);
    }
}
