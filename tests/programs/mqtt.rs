//! MQTT packets that arrive in chunks. Sections are those of MQTT Version 3.1.1.

use std::alloc::AllocError;
use winnow::Func;
use winnow::binary::impls::BeU16;
use winnow::binary::{be_u8, be_u16, length_take};
use winnow::combinator::cond;
use winnow::error::{EmptyError, ErrMode};
use winnow::prelude::*;
use winnow::stream::{ByteStream, Partial};
use winnow::token::rest;

type Modal = ErrMode<EmptyError>;

/// A control packet.
#[derive(Clone, Copy, Debug, PartialEq, Eq)]
enum Packet<'i> {
    Connect {
        flags: u8,
        keep_alive: u16,
        client: &'i [u8],
        /// The fields that the flags announce (3.1.3).
        fields: &'i [u8],
    },
    Publish {
        topic: &'i [u8],
        id: Option<u16>,
        message: &'i [u8],
    },
    Other(u8),
}

/// Parses a remaining length: seven bits in each of up to four bytes, the lowest first (2.2.3).
fn read_length<I: StreamIsPartial + ByteStream>(input: &mut I) -> Result<usize, Modal> {
    let mut length = 0;
    for shift in [0, 7, 14, 21] {
        let byte = be_u8(input)?;
        length |= ((byte & 0x7F) as usize) << shift;
        if byte < 0x80 {
            return Ok(length);
        }
    }
    Err(ErrMode::Cut(EmptyError::from_input(input)))
}

/// Parses what follows the remaining length of a CONNECT (3.1.2, 3.1.3).
fn read_connect<'i>(input: &mut &'i [u8]) -> Result<Packet<'i>, Modal> {
    b"\x00\x04MQTT\x04".as_slice().parse_next(input)?;
    let flags = be_u8(input)?;
    let keep_alive = be_u16(input)?;
    let client = length_take(BeU16).parse_next(input)?;
    let fields = rest(input)?;
    Ok(Packet::Connect {
        flags,
        keep_alive,
        client,
        fields,
    })
}

/// Parses what follows the remaining length of a PUBLISH, whose header has the flags (3.3).
fn read_publish<'i>(flags: u8, input: &mut &'i [u8]) -> Result<Packet<'i>, Modal> {
    let quality = flags >> 1 & 3;
    if quality == 3 {
        return Err(ErrMode::Cut(EmptyError::from_input(input)));
    }
    let topic = length_take(BeU16).parse_next(input)?;
    let id = cond(quality > 0, BeU16).parse_next(input)?;
    let message = rest(input)?;
    Ok(Packet::Publish { topic, id, message })
}

/// Parses a packet. The body is complete, since its length is known.
fn read_packet<'i>(input: &mut Partial<&'i [u8]>) -> Result<Packet<'i>, Modal> {
    let header = be_u8(input)?;
    let mut body: &'i [u8] = length_take(Func(read_length::<Partial<&[u8]>>)).parse_next(input)?;
    match header >> 4 {
        1 => read_connect(&mut body),
        3 => read_publish(header & 15, &mut body),
        kind => Ok(Packet::Other(kind)),
    }
}

/// Appends bytes that were received to those that are held, and calls `each` with each packet that
/// is then complete. Returns whether the bytes are valid so far.
fn receive(held: &mut Vec<u8>, bytes: &[u8], mut each: impl FnMut(Packet<'_>)) -> bool {
    if held.extend_from_slice(bytes).is_err() {
        return false;
    }
    let mut input = Partial::new(held.as_slice());
    let mut passed = 0;
    let is_valid = loop {
        match read_packet(&mut input) {
            Ok(packet) => {
                each(packet);
                passed = held.len() - input.eof_offset();
            }
            Err(ErrMode::Incomplete(_)) => break true,
            Err(_) => break false,
        }
    };
    held.drain(..passed);
    is_valid
}

// The rows of Table 2.4, and the example before it.
#[test]
fn lengths(rt: HostRuntime) {
    let rows = [
        ([0x00, 0, 0, 0].as_slice(), 0),
        (&[0x7F], 127),
        (&[0x80, 0x01], 128),
        (&[0xFF, 0x7F], 16_383),
        (&[0x80, 0x80, 0x01], 16_384),
        (&[0xFF, 0xFF, 0x7F], 2_097_151),
        (&[0x80, 0x80, 0x80, 0x01], 2_097_152),
        (&[0xFF, 0xFF, 0xFF, 0x7F], 268_435_455),
        (&[193, 2], 321),
    ];
    for (bytes, length) in rows {
        let mut input = bytes;
        assert_eq!(rt; read_length(&mut input).ok(), Some(length));
    }
    let too_long = read_length(&mut [0x80, 0x80, 0x80, 0x80, 0x01].as_slice());
    assert!(rt; matches!(too_long, Err(ErrMode::Cut(_))));
}

// The headers of Figures 3.6 and 3.11.
const CONNECT: &[u8] = b"\x10\x0D\x00\x04MQTT\x04\xCE\x00\x0A\x00\x01c";

const PUBLISH: &[u8] = b"\x32\x09\x00\x03a/b\x00\x0Ahi";

const PING: &[u8] = b"\xC0\x00";

/// Returns what a packet of the three above is, as its place in their order.
fn place_of(packet: Packet<'_>) -> Option<usize> {
    let connect = Packet::Connect {
        flags: 0b1100_1110,
        keep_alive: 10,
        client: b"c",
        fields: b"",
    };
    let publish = Packet::Publish {
        topic: b"a/b",
        id: Some(10),
        message: b"hi",
    };
    [connect, publish, Packet::Other(12)]
        .iter()
        .position(|it| *it == packet)
}

#[test]
fn packets_in_two_pieces(rt: HostRuntime) -> Result<(), AllocError> {
    let mut bytes = Vec::new(rt.alloc());
    for packet in [CONNECT, PUBLISH, PING] {
        bytes.extend_from_slice(packet)?;
    }
    for cut in 0..bytes.len() {
        let (mut held, mut found) = (Vec::new(rt.alloc()), [None; 3]);
        let mut count = 0;
        for piece in [&bytes[..cut], &bytes[cut..]] {
            let is_valid = receive(&mut held, piece, |packet| {
                found[count] = place_of(packet);
                count += 1;
            });
            assert!(rt; is_valid);
        }
        assert_eq!(rt; found, [Some(0), Some(1), Some(2)]);
        assert!(rt; held.is_empty());
    }
    Ok(())
}

#[test]
fn invalid_packets(rt: HostRuntime) {
    for bytes in [
        b"\x36\x02\x00\x00".as_slice(),
        b"\x30\x02\x00\x01",
        b"\x10\x07\x00\x04MQTX\x04",
        b"\x30\x80\x80\x80\x80\x01",
    ] {
        let mut held = Vec::new(rt.alloc());
        assert!(rt; !receive(&mut held, bytes, |_packet| ()));
    }
}
