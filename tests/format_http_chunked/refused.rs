//! Invalid bodies, with the first byte that cannot continue a body, and limits.
use crate::bodies::decode;
use format_http_chunked::decoder::{ChunkError, Limits, SAFE_LIMITS};
use std::alloc::Allocator;
use std::process::Abort;

/// Bytes, the length of their longest prefix that can start a body, and why the next byte is
/// rejected.
const REFUSED: &[(&[u8], usize, ChunkError)] = &[
    (b"\r\n", 0, ChunkError::Size),
    (b"g\r\n", 0, ChunkError::Size),
    (b"-1\r\n", 0, ChunkError::Size),
    (b"+1\r\n", 0, ChunkError::Size),
    (b" 1\r\n", 0, ChunkError::Size),
    (b";a\r\n", 0, ChunkError::Size),
    (b"1\n", 1, ChunkError::SizeLine),
    (b"0x1\r\n", 1, ChunkError::SizeLine),
    (b"1\r\r", 2, ChunkError::SizeLine),
    (b"1 \r\n", 2, ChunkError::SizeLine),
    (b"1;\r\n", 2, ChunkError::SizeLine),
    (b"1;;", 2, ChunkError::SizeLine),
    (b"1;a =\r", 5, ChunkError::SizeLine),
    (b"1;a \r", 4, ChunkError::SizeLine),
    (b"1;a=,", 4, ChunkError::SizeLine),
    (b"1;a=\"\r", 5, ChunkError::SizeLine),
    (b"1;a=\"\\\r", 6, ChunkError::SizeLine),
    (b"1;a=\"b\"c", 7, ChunkError::SizeLine),
    (b"1;a=b c", 6, ChunkError::SizeLine),
    (b"1;a=b\"", 5, ChunkError::SizeLine),
    (b"10000000000000000\r\n", 16, ChunkError::SizeTooLarge),
    (b"fffffffffffffffff", 16, ChunkError::SizeTooLarge),
    (b"0FFFFFFFFFFFFFFFFa", 17, ChunkError::SizeTooLarge),
    (b"1\r\nab", 4, ChunkError::DataEnd),
    (b"1\r\na\n", 4, ChunkError::DataEnd),
    (b"1\r\na\rb", 5, ChunkError::DataEnd),
    (b"1\r\na\r\n\r\n", 6, ChunkError::Size),
    (b"0\r\n\n", 3, ChunkError::Trailers),
    (b"0\r\n\r\r", 4, ChunkError::Trailers),
    (b"0\r\n:", 3, ChunkError::Trailers),
    (b"0\r\n a: b\r\n", 3, ChunkError::Trailers),
    (b"0\r\na :", 4, ChunkError::Trailers),
    (b"0\r\na\r\n", 4, ChunkError::Trailers),
    (b"0\r\na: b\n", 7, ChunkError::Trailers),
    (b"0\r\na: b\r\r", 8, ChunkError::Trailers),
    (b"0\r\na: \0", 6, ChunkError::Trailers),
    (b"0\r\na: b\r\n c", 9, ChunkError::Trailers),
];

fn refused<A: Allocator + Copy>(
    rt: &impl Abort,
    alloc: A,
    limits: Limits,
    pieces: &[&[u8]],
    want: (usize, ChunkError),
) {
    match decode(alloc, limits, pieces) {
        Ok(decoded) => {
            assert_eq!(rt; decoded.taken, want.0, "{pieces:?}");
            assert!(rt; decoded.fault == Some(want.1), "{pieces:?}");
            assert!(rt; !decoded.ended, "{pieces:?}");
        }
        Err(_) => assert!(rt; false, "memory"),
    }
}

#[test]
fn advance_refuses_the_first_byte(rt: HostRuntime) {
    for (text, taken, fault) in REFUSED {
        for cut in 0..text.len() + 1 {
            let pieces = [&text[..cut], &text[cut..]];
            refused(&rt, rt.alloc(), SAFE_LIMITS, &pieces, (*taken, *fault));
        }
    }
}

/// The largest size is accepted.
#[test]
fn advance_takes_a_size_of_64_bits(rt: HostRuntime) {
    match decode(rt.alloc(), SAFE_LIMITS, &[b"ffffffffffffffff\r\nabc"]) {
        Ok(decoded) => {
            assert!(rt; decoded.fault == None);
            assert_eq!(rt; decoded.content.as_slice(), b"abc".as_slice());
        }
        Err(_) => assert!(rt; false, "memory"),
    }
}

const FEW: Limits = Limits { size_line: 7, trailers: 6 };

#[test]
fn limits_are_between_data_and_of_all_trailers(rt: HostRuntime) {
    let line = ChunkError::SizeLineTooLong;
    let trailers = ChunkError::TrailersTooLong;
    refused(&rt, rt.alloc(), FEW, &[b"000", b"00001\r\n"], (7, line));
    refused(&rt, rt.alloc(), FEW, &[b"1;abcde\r\n"], (7, line));
    refused(&rt, rt.alloc(), FEW, &[b"000000\r\n"], (7, line));
    refused(&rt, rt.alloc(), FEW, &[b"00001\r\na\r\n001\r\nb\r\n0001\r\n"], (23, line));
    refused(&rt, rt.alloc(), FEW, &[b"0\r\na:b\r\n", b"c:\r\n\r\n"], (9, trailers));
    refused(&rt, rt.alloc(), FEW, &[b"0\r\nabcdefg:"], (9, trailers));
    match decode(rt.alloc(), FEW, &[b"001\r\na\r\n0\r\na:bc\r\n\r\n"]) {
        Ok(decoded) => assert!(rt; decoded.ended && decoded.content.len() == 1),
        Err(_) => assert!(rt; false, "memory"),
    }
}
