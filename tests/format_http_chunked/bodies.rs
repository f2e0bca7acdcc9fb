//! Bodies by the grammar of RFC 9112, section 7.1, at every pair of cuts.
use format_http_chunked::decoder::{Decoder, ChunkError, Limits, SAFE_LIMITS, Step};
use std::alloc::{AllocError, Allocator};
use std::process::Abort;

/// The result of decoding pieces of a body.
#[derive(Drop)]
pub(crate) struct Decoded<A: Allocator> {
    pub(crate) content: Vec<u8, A>,
    pub(crate) trailers: Vec<u8, A>,
    /// The number of consumed bytes. The fields below give the last step: the end, or why a byte
    /// was rejected.
    pub(crate) taken: usize,
    pub(crate) ended: bool,
    pub(crate) fault: Option<ChunkError>,
}

fn take_piece<A: Allocator>(
    kept: &mut Decoder,
    piece: &[u8],
    decoded: &mut Decoded<A>,
) -> Result<(), AllocError> {
    let mut input = piece;
    let mut goes_on = true;
    while goes_on {
        // A decoder restored from its state as numbers resumes where it stopped.
        let mut decoder = Decoder::of_state(kept.state());
        let said = decoder.advance(&mut input);
        *kept = decoder;
        match said {
            Ok(Step::Data(bytes)) => decoded.content.extend_from_slice(bytes)?,
            Ok(Step::Trailers(bytes)) => decoded.trailers.extend_from_slice(bytes)?,
            Ok(Step::More) => goes_on = false,
            Ok(Step::End) => {
                decoded.ended = true;
                goes_on = false;
            }
            Err(fault) => {
                decoded.fault = Some(fault);
                goes_on = false;
            }
        }
    }
    decoded.taken += piece.len() - input.len();
    Ok(())
}

/// Decodes pieces up to the end of the body or an error.
pub(crate) fn decode<A: Allocator + Copy>(
    alloc: A,
    limits: Limits,
    pieces: &[&[u8]],
) -> Result<Decoded<A>, AllocError> {
    let mut decoder = Decoder::new(limits);
    let mut decoded = Decoded {
        content: Vec::new(alloc),
        trailers: Vec::new(alloc),
        taken: 0,
        ended: false,
        fault: None,
    };
    for piece in pieces {
        if !decoded.ended && decoded.fault.is_none() {
            take_piece(&mut decoder, piece, &mut decoded)?;
        }
    }
    Ok(decoded)
}

/// Bodies, their content, their trailers, and the number of bytes after them.
const BODIES: &[(&[u8], &[u8], &[u8], usize)] = &[
    (b"0\r\n\r\n", b"", b"", 0),
    (b"00000\r\n\r\n", b"", b"", 0),
    (b"4\r\nWiki\r\n7\r\npedia i\r\nB\r\nn \r\nchunks.\r\n0\r\n\r\n", b"Wikipedia in \r\nchunks.", b"", 0),
    (b"1\r\na\r\n1\r\n\r\r\n1\r\n\n\r\n000\r\n\r\n", b"a\r\n", b"", 0),
    (b"00a\r\n0123456789\r\n0\r\n\r\nHTTP/1.1", b"0123456789", b"", 8),
    (b"1F\r\n0123456789012345678901234567890\r\n0\r\n\r\n", b"0123456789012345678901234567890", b"", 0),
    (b"1;a\r\nx\r\n0;b=c\r\n\r\n", b"x", b"", 0),
    (b"1;a;b=c ; d\t= \"e\"\r\nx\r\n0\r\n\r\n", b"x", b"", 0),
    (b"1 ;a=\"\"\r\nx\r\n0\t;\tb\r\n\r\n", b"x", b"", 0),
    (b"1;a=\"\\\"\\\\;\\a \xff\"\r\nx\r\n0\r\n\r\n", b"x", b"", 0),
    (b"1;ab!~=cd;e\r\nx\r\n0\r\n\r\n", b"x", b"", 0),
    (b"0\r\nA: b\r\n\r\n", b"", b"A: b\r\n", 0),
    (b"0\r\nA:\r\nLong-Name:\t v \xe9 w \r\n\r\n\r\n", b"", b"A:\r\nLong-Name:\t v \xe9 w \r\n", 2),
    (b"2\r\n\r\n\r\n0;x\r\nC:::\r\n\r\n0\r\n\r\n", b"\r\n", b"C:::\r\n", 5),
];

fn same<A: Allocator + Copy>(rt: &impl Abort, alloc: A, row: usize, pieces: &[&[u8]]) {
    let (text, content, trailers, behind) = BODIES[row];
    match decode(alloc, SAFE_LIMITS, pieces) {
        Ok(decoded) => {
            assert!(rt; decoded.ended, "{text:?}");
            assert!(rt; decoded.fault == None, "{text:?}");
            assert_eq!(rt; decoded.content.as_slice(), content, "{text:?}");
            assert_eq!(rt; decoded.trailers.as_slice(), trailers, "{text:?}");
            assert_eq!(rt; decoded.taken, text.len() - behind, "{text:?}");
        }
        Err(_) => assert!(rt; false, "memory"),
    }
}

#[test]
fn advance_at_every_pair_of_cuts(rt: HostRuntime) {
    for row in 0..BODIES.len() {
        let text = BODIES[row].0;
        same(&rt, rt.alloc(), row, &[text]);
        for second in 0..text.len() + 1 {
            for first in 0..second + 1 {
                let pieces = [&text[..first], &text[first..second], &text[second..]];
                same(&rt, rt.alloc(), row, &pieces);
            }
        }
    }
}

/// Before the end more input is needed; after it every call returns the end again.
#[test]
fn advance_asks_for_more_up_to_the_end(rt: HostRuntime) {
    for (text, content, _, behind) in BODIES {
        for cut in 0..text.len() - behind {
            match decode(rt.alloc(), SAFE_LIMITS, &[&text[..cut]]) {
                Ok(decoded) => {
                    assert!(rt; !decoded.ended && decoded.fault == None, "{text:?} {cut}");
                    assert_eq!(rt; decoded.taken, cut, "{text:?}");
                    assert!(rt; content.starts_with(decoded.content.as_slice()), "{text:?} {cut}");
                }
                Err(_) => assert!(rt; false, "memory"),
            }
        }
    }
    let mut decoder = Decoder::new(SAFE_LIMITS);
    let mut input = b"0\r\n\r\n".as_slice();
    assert!(rt; matches!(decoder.advance(&mut input), Ok(Step::End)));
    let mut behind = b"x".as_slice();
    assert!(rt; matches!(decoder.advance(&mut behind), Ok(Step::End)));
    assert_eq!(rt; behind, b"x".as_slice());
}
