//! Where replies end, at every cut and in many pieces.
use crate::replies::{BOTH, OF_RESP3, REPLIES, same};
use std::alloc::{AllocError, Allocator};
use format_resp::bounded::bounded_length;
use format_resp::extent::{Extent, Invalid, Reason};
use format_resp::reply::Protocol;

/// Bytes that do not start a reply of either version, the length of the shortest prefix that is
/// rejected, up to the end of an invalid line, otherwise up to the first byte that cannot continue
/// a reply, the reason, and the offset of the invalid line or data.
pub const REFUSED: &[(&[u8], usize, Reason, usize)] = &[
    (b"OK\r\n", 1, Reason::Malformed, 0),
    (b"\r\n", 1, Reason::Malformed, 0),
    (b"+O\nK\r\n", 3, Reason::Malformed, 0),
    (b"+O\rK\r\n", 4, Reason::Malformed, 0),
    (b":\r\n", 3, Reason::Malformed, 0),
    (b":12a\r\n", 6, Reason::Malformed, 0),
    (b":1.5\r\n", 6, Reason::Malformed, 0),
    (b":--0\r\n", 6, Reason::Malformed, 0),
    (b"$+3\r\n", 5, Reason::Malformed, 0),
    (b"*+1\r\n", 5, Reason::Malformed, 0),
    (b"$-01\r\n", 6, Reason::Malformed, 0),
    (b"$?\r\n", 4, Reason::Malformed, 0),
    (b"*?\r\n", 4, Reason::Malformed, 0),
    (b":9223372036854775808\r\n", 22, Reason::TooLarge, 0),
    (b":-9223372036854775809\r\n", 23, Reason::TooLarge, 0),
    (b":+99999999999999999999999\r\n", 27, Reason::TooLarge, 0),
    (b"$9223372036854775808\r\n", 22, Reason::TooLarge, 0),
    (b"*3\r\n:1\r\n*18446744073709551616\r\n", 31, Reason::TooLarge, 8),
    (b"$-9223372036854775809\r\n", 23, Reason::Malformed, 0),
    (b"$-2\r\n", 5, Reason::Malformed, 0),
    (b"$\r\nab\r\n", 3, Reason::Malformed, 0),
    (b"$1\r\nab\r\n", 6, Reason::Malformed, 4),
    (b"$3\r\nab\r\n\r\n", 8, Reason::Malformed, 4),
    (b"$3\r\nabc\rx", 9, Reason::Malformed, 4),
    (b"*-2\r\n", 5, Reason::Malformed, 0),
    (b"*1\r\nx\r\n", 5, Reason::Malformed, 4),
    (b"*2\r\n:1\r\n:x\r\n", 12, Reason::Malformed, 8),
];

/// Likewise for RESP2 only.
const NOT_RESP2: &[(&[u8], usize, Reason, usize)] = &[
    (b"_\r\n", 1, Reason::Malformed, 0),
    (b"#t\r\n", 1, Reason::Malformed, 0),
    (b"*1\r\n%0\r\n", 5, Reason::Malformed, 4),
];

/// Likewise for RESP3 only.
const NOT_RESP3: &[(&[u8], usize, Reason, usize)] = &[
    (b"_x\r\n", 4, Reason::Malformed, 0),
    (b"#x\r\n", 4, Reason::Malformed, 0),
    (b",1.\r\n", 5, Reason::Malformed, 0),
    (b"(1.5\r\n", 6, Reason::Malformed, 0),
    (b"!-1\r\n", 5, Reason::Malformed, 0),
    (b"%-1\r\n", 5, Reason::Malformed, 0),
    (b"=3\r\ntxt\r\n", 9, Reason::Malformed, 4),
    (b"=5\r\ntextX\r\n", 11, Reason::Malformed, 4),
    (b"~1\r\n!1\r\nab\r\n", 10, Reason::Malformed, 8),
    (b"%4611686018427387904\r\n", 22, Reason::TooLarge, 0),
    (b"~9223372036854775808\r\n", 22, Reason::TooLarge, 0),
    (b"|1\r\n+a\r\n:9223372036854775808\r\n", 30, Reason::TooLarge, 8),
];

/// Replies that are nested one level deeper than the depth, and the offset of the aggregate, for
/// both versions.
const DEEP: &[(&[u8], usize, usize)] = &[
    (b"*0\r\n", 0, 0),
    (b"*1\r\n:1\r\n", 0, 0),
    (b"*2\r\n:1\r\n*1\r\n:x\r\n", 1, 8),
    (b"*2\r\n*1\r\n:1\r\n*1\r\n*1\r\n:1\r\n", 2, 16),
];

/// Proper prefixes of replies.
const OPEN: &[&[u8]] = &[
    b"",
    b"*9223372036854775807\r\n*9223372036854775807\r\n*9223372036854775807\r\n:1\r\n",
    b"$9223372036854775807\r\nab\r\n",
    b"*1\r\n*2\r\n*1\r\n:7\r\n",
];

/// Finds the end at each cut, in chunks and at once.
fn ends_at_every_cut(
    rt: &impl std::process::Abort,
    protocol: Protocol,
    text: &[u8],
    length: usize,
) {
    let mut extent = Extent::new();
    for cut in 0..text.len() + 1 {
        let want = Ok(if cut < length { None } else { Some(length) });
        same(rt, text, extent.advance(protocol, &text[..cut]), want);
        same(rt, text, Extent::new().advance(protocol, &text[..cut]), want);
        same(rt, text, bounded_length(protocol, 9, &text[..cut]), want);
    }
}

#[test]
fn advance_at_every_cut(rt: HostRuntime) {
    for (text, _, behind) in REPLIES {
        for protocol in BOTH {
            ends_at_every_cut(&rt, protocol, text, text.len() - behind);
        }
    }
    for (text, _, behind) in OF_RESP3 {
        ends_at_every_cut(&rt, Protocol::Resp3, text, text.len() - behind);
    }
}

/// Rejects bytes from the same prefix on, in chunks and at once, for the same reason.
fn refuses(
    rt: &impl std::process::Abort,
    protocol: Protocol,
    text: &[u8],
    told: usize,
    invalid: Invalid,
) {
    let mut extent = Extent::new();
    for cut in 0..told {
        same(rt, text, extent.advance(protocol, &text[..cut]), Ok(None));
        same(rt, text, bounded_length(protocol, 9, &text[..cut]), Ok(None));
    }
    same(rt, text, extent.advance(protocol, &text[..told]), Err(invalid));
    for cut in told..text.len() + 1 {
        same(rt, text, Extent::new().advance(protocol, &text[..cut]), Err(invalid));
        same(rt, text, bounded_length(protocol, 9, &text[..cut]), Err(invalid));
    }
}

#[test]
fn advance_refuses(rt: HostRuntime) {
    for (text, told, reason, offset) in REFUSED {
        for protocol in BOTH {
            refuses(&rt, protocol, text, *told, Invalid { reason: *reason, offset: *offset });
        }
    }
    for (text, told, reason, offset) in NOT_RESP2 {
        let invalid = Invalid { reason: *reason, offset: *offset };
        refuses(&rt, Protocol::Resp2, text, *told, invalid);
    }
    for (text, told, reason, offset) in NOT_RESP3 {
        let invalid = Invalid { reason: *reason, offset: *offset };
        refuses(&rt, Protocol::Resp3, text, *told, invalid);
    }
}

#[test]
fn bounded_length_refuses_deep_ones(rt: HostRuntime) {
    for (text, level, offset) in DEEP {
        let invalid = Invalid { reason: Reason::TooDeep, offset: *offset };
        for cut in *offset + 4..text.len() + 1 {
            for protocol in BOTH {
                same(&rt, text, bounded_length(protocol, *level, &text[..cut]), Err(invalid));
            }
        }
    }
}

#[test]
fn advance_of_open_ones(rt: HostRuntime) {
    for text in OPEN {
        for protocol in BOTH {
            same(&rt, text, Extent::new().advance(protocol, text), Ok(None));
        }
    }
}

/// The head of an array of 1,000 elements, and `count` bulk strings of 20 bytes.
fn large_array<A: Allocator>(alloc: A, count: usize) -> Result<Vec<u8, A>, AllocError> {
    let mut bytes = Vec::new(alloc);
    bytes.extend_from_slice(b"*1000\r\n".as_slice())?;
    for _ in 0..count {
        bytes.extend_from_slice(b"$20\r\n01234567890123456789\r\n".as_slice())?;
    }
    Ok(bytes)
}

/// In pieces of 146 bytes. What was passed is overwritten: no byte of it is looked at again.
#[test]
fn advance_of_many_pieces(rt: HostRuntime) {
    let Ok(mut bytes) = large_array(rt.alloc(), 1000) else {
        same(&rt, b"", true, false);
        return;
    };
    let mut extent = Extent::new();
    let (mut there, mut gone) = (0, 0);
    while there + 146 < bytes.len() {
        there += 146;
        same(&rt, b"", extent.advance(Protocol::Resp2, &bytes[..there]), Ok(None));
        while gone < extent.passed {
            bytes[gone] = b'?';
            gone += 1;
        }
    }
    same(&rt, b"", extent.advance(Protocol::Resp2, bytes.as_slice()), Ok(Some(27007)));
}
