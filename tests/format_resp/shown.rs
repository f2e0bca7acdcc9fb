//! Replies as one line of text.
use format_resp::reply::{Reply, split_verbatim};
use std::alloc::{AllocFailed, Allocator};

/// Writes a reply: a letter for its variant, and in brackets its bytes or elements.
pub fn show<A: Allocator + Copy>(
    reply: &Reply<&[u8], A>,
    line: &mut Vec<u8, A>,
) -> Result<(), AllocFailed<u8>> {
    match reply {
        Reply::Simple(bytes) => framed(b's', bytes, line),
        Reply::Error(bytes) => framed(b'e', bytes, line),
        Reply::Integer(number) => {
            line.push(b'i')?;
            line.push(if *number < 0 { b'-' } else { b'+' })?;
            digits(number.unsigned_abs(), line)
        }
        Reply::Null => line.push(b'0'),
        Reply::Boolean(boolean) => line.push(if *boolean { b'T' } else { b'F' }),
        Reply::Double(text) => framed(b'd', text, line),
        Reply::BigNumber(text) => framed(b'g', text, line),
        Reply::Bulk(bytes) => framed(b'b', bytes, line),
        Reply::NullBulk => line.push(b'n'),
        Reply::BulkError(bytes) => framed(b'E', bytes, line),
        Reply::Verbatim(bytes) => match split_verbatim(bytes) {
            Some((format, text)) => {
                framed(b'v', format, line)?;
                framed(b'/', text, line)
            }
            None => line.push(b'?'),
        },
        Reply::Array(replies) => elements(b'a', replies.as_slice(), line),
        Reply::NullArray => line.push(b'N'),
        Reply::Map(replies) => elements(b'm', replies.as_slice(), line),
        Reply::Set(replies) => elements(b't', replies.as_slice(), line),
        Reply::Push(replies) => elements(b'p', replies.as_slice(), line),
        Reply::Attributed(replies) => elements(b'A', replies.as_slice(), line),
    }
}

fn elements<A: Allocator + Copy>(
    letter: u8,
    replies: &[Reply<&[u8], A>],
    line: &mut Vec<u8, A>,
) -> Result<(), AllocFailed<u8>> {
    line.push(letter)?;
    line.push(b'[')?;
    for element in replies.iter() {
        show(element, line)?;
    }
    line.push(b']')
}

fn framed<A: Allocator>(
    letter: u8,
    bytes: &[u8],
    line: &mut Vec<u8, A>,
) -> Result<(), AllocFailed<u8>> {
    line.push(letter)?;
    line.push(b'[')?;
    for byte in bytes.iter() {
        line.push(*byte)?;
    }
    line.push(b']')
}

fn digits<A: Allocator>(number: u64, line: &mut Vec<u8, A>) -> Result<(), AllocFailed<u8>> {
    if number >= 10 {
        digits(number / 10, line)?;
    }
    line.push(b'0' + (number % 10) as u8)
}
