//! Chunks of PNG files that arrive incrementally. Sections are those of the PNG specification,
//! third edition.

use std::alloc::AllocError;
use winnow::binary::impls::BeU32;
use winnow::binary::{be_u8, be_u32};
use winnow::error::ErrMode;
use winnow::prelude::*;
use winnow::stream::Partial;
use winnow::token::take;

/// A chunk (5.3).
#[derive(Clone, Copy, Debug, PartialEq, Eq)]
struct Chunk<'i> {
    kind: &'i [u8],
    data: &'i [u8],
}

/// The first fields of an image header (11.2.1).
#[derive(Clone, Copy, Debug, PartialEq, Eq)]
struct Header {
    width: u32,
    height: u32,
    bit_depth: u8,
    color: u8,
}

/// Returns the checksum of bytes (annex D).
fn sum_of(bytes: &[u8]) -> u32 {
    let mut sum = u32::MAX;
    for byte in bytes {
        sum ^= *byte as u32;
        for _bit in 0..8 {
            sum = sum >> 1 ^ if sum & 1 == 1 { 0xEDB8_8320 } else { 0 };
        }
    }
    !sum
}

/// Parses the signature of a file (5.2).
fn read_signature(input: &mut Partial<&[u8]>) -> ModalResult<()> {
    b"\x89PNG\r\n\x1A\n".as_slice().void().parse_next(input)
}

/// Parses the length of a chunk's data.
fn read_length(input: &mut Partial<&[u8]>) -> ModalResult<u32> {
    BeU32
        .verify(|length: &u32| *length < 1 << 31)
        .parse_next(input)
}

/// Parses a chunk, whose checksum must be right.
fn read_chunk<'i>(input: &mut Partial<&'i [u8]>) -> ModalResult<Chunk<'i>> {
    let length = read_length(input)?;
    let ((kind, data), bytes) = (take(4_usize), take(length))
        .with_taken()
        .parse_next(input)?;
    BeU32
        .verify(|sum: &u32| *sum == sum_of(bytes))
        .parse_next(input)?;
    Ok(Chunk { kind, data })
}

/// Parses the data of an image header.
fn read_header(input: &mut &[u8]) -> ModalResult<Header> {
    let width = be_u32(input)?;
    let height = be_u32(input)?;
    let bit_depth = be_u8(input)?;
    let color = be_u8(input)?;
    Ok(Header {
        width,
        height,
        bit_depth,
        color,
    })
}

// An image of three by two pixels. The checksums are those of Python's `zlib`.
const FILE: &[u8] = b"\x89PNG\r\n\x1A\n\
    \x00\x00\x00\x0DIHDR\x00\x00\x00\x03\x00\x00\x00\x02\x08\x00\x00\x00\x00\xB8\x1F9\xC6\
    \x00\x00\x00\x0EIDATx\xDAc\x60dbf\x00b\x00\x004\x00\x0DnK\xC9\x86\
    \x00\x00\x00\x00IEND\xAEB\x60\x82";

/// Where the signature and each chunk of the file end.
const ENDS: [usize; 4] = [8, 33, 59, 71];

#[test]
fn chunks(rt: HostRuntime) {
    let mut input = Partial::new(FILE);
    assert_eq!(rt; read_signature(&mut input).ok(), Some(()));
    let mut header = read_chunk(&mut input).map_or(b"".as_slice(), |chunk| chunk.data);
    let wanted = Header {
        width: 3,
        height: 2,
        bit_depth: 8,
        color: 0,
    };
    assert_eq!(rt; read_header(&mut header).ok(), Some(wanted));
    for (kind, length) in [(b"IDAT", 14), (b"IEND", 0)] {
        let chunk = read_chunk(&mut input).ok();
        assert!(rt; chunk.is_some_and(|it| it.kind == kind.as_slice() && it.data.len() == length));
    }
    assert_eq!(rt; input.eof_offset(), 0);
}

// The complete chunks of every prefix of the file are parsed, and then more is needed.
#[test]
fn prefixes(rt: HostRuntime) {
    for length in 0..FILE.len() {
        let mut input = Partial::new(&FILE[..length]);
        let mut count = 0;
        let mut result = read_signature(&mut input);
        while result.is_ok() {
            assert!(rt; length - input.eof_offset() == ENDS[count]);
            count += 1;
            result = read_chunk(&mut input).map(|_| ());
        }
        assert!(rt; matches!(result, Err(ErrMode::Incomplete(_))));
        assert_eq!(rt; count, ENDS.iter().filter(|end| **end <= length).count());
    }
}

#[test]
fn invalid(rt: HostRuntime) -> Result<(), AllocError> {
    let mut bytes = Vec::new(rt.alloc());
    bytes.extend_from_slice(FILE)?;
    for at in 0..FILE.len() {
        bytes[at] ^= 0x80;
        let mut input = Partial::new(bytes.as_slice());
        let mut is_valid = read_signature(&mut input).is_ok();
        for _chunk in 0..3 {
            is_valid = is_valid && read_chunk(&mut input).is_ok();
        }
        assert!(rt; !is_valid);
        bytes[at] ^= 0x80;
    }
    Ok(())
}
