//! Redis replies (RESP2 and RESP3), from complete or partial input, and commands.
//!
//! ```
//! use pergidau::resp::{self, Protocol, Reply};
//!
//! let (reply, rest) = resp::reply(b"+OK\r\n#t\r\n", Protocol::Resp3, 0)?;
//! assert_eq!(reply, Reply::Simple(b"OK"));
//! assert_eq!(resp::reply(rest, Protocol::Resp3, 0)?, (Reply::Boolean(true), &b""[..]));
//! let mut request = Vec::new();
//! resp::append_command(&["LLEN", "mylist"], &mut request)?;
//! assert_eq!(request, b"*2\r\n$4\r\nLLEN\r\n$6\r\nmylist\r\n");
//! # Ok::<(), pergidau::Error>(())
//! ```
//!
//! [`nodes`] writes all replies in a reply into a buffer, in one pass, for callers that visit most of
//! them.
mod nodes;

pub use nodes::{nodes, Item, ItemElements, Node, Nodes};
#[cfg(feature = "alloc")]
pub use nodes::OwnedNodes;

use crate::exports::{self, MAX_DEPTH};
#[cfg(feature = "alloc")]
use crate::bytes::append;
use crate::{at, Bytes, Error, RequiredSize, NOTHING};
#[cfg(feature = "alloc")]
use alloc::vec::Vec;

/// The version of the protocol that replies are of. Each reply of RESP2 is one of RESP3 too.
#[derive(Clone, Copy, Debug, PartialEq, Eq)]
pub enum Protocol {
    /// The second, which has only the kinds from [`Reply::Simple`] to [`Reply::NullArray`].
    Resp2,
    /// The third.
    Resp3,
}

impl Protocol {
    fn number(self) -> u32 {
        match self {
            Protocol::Resp2 => 2,
            Protocol::Resp3 => 3,
        }
    }
}

/// A Redis reply, whose strings are slices of the input.
#[derive(Clone, Copy, Debug, PartialEq, Eq)]
pub enum Reply<'i> {
    /// A simple string, without carriage returns and line feeds.
    Simple(&'i [u8]),
    /// An error, without carriage returns and line feeds.
    Error(&'i [u8]),
    /// An integer.
    Integer(i64),
    /// A bulk string: any bytes.
    Bulk(&'i [u8]),
    /// The null bulk string.
    NullBulk,
    /// An array: its elements.
    Array(Elements<'i>),
    /// The null array.
    NullArray,
    /// The null of RESP3.
    Null,
    /// A boolean.
    Boolean(bool),
    /// A double, as its text, which [`str::parse`] accepts.
    Double(&'i [u8]),
    /// A big number, as its text: digits, and a sign before them or none.
    BigNumber(&'i [u8]),
    /// A bulk error: any bytes.
    BulkError(&'i [u8]),
    /// A verbatim string: a format of three bytes, and any bytes.
    Verbatim(&'i [u8], &'i [u8]),
    /// A map: its keys, each followed by its value.
    Map(Elements<'i>),
    /// A set: its elements.
    Set(Elements<'i>),
    /// A push, which is not a reply to a command: its parts.
    Push(Elements<'i>),
    /// Attributes: their names, each followed by its value, and at the end the reply that they
    /// belong to.
    Attributed(Elements<'i>),
}

/// An iterator over the elements of an aggregate, each parsed on demand. They were checked before, so
/// the only possible error is [`Error::NoMemory`]; after it the iterator returns `None`.
#[derive(Clone, Copy, Debug, PartialEq, Eq)]
pub struct Elements<'i> {
    left: &'i [u8],
    count: usize,
    protocol: Protocol,
}

impl<'i> Iterator for Elements<'i> {
    type Item = Result<Reply<'i>, Error>;

    fn next(&mut self) -> Option<Self::Item> {
        self.count = self.count.checked_sub(1)?;
        match reply(self.left, self.protocol, MAX_DEPTH) {
            Ok((reply, rest)) => {
                self.left = rest;
                Some(Ok(reply))
            }
            Err(error) => {
                self.count = 0;
                Some(Err(error))
            }
        }
    }

    fn size_hint(&self) -> (usize, Option<usize>) {
        (self.count, Some(self.count))
    }
}

impl ExactSizeIterator for Elements<'_> {}

type Export = unsafe extern "C" fn(*const u8, usize, u32, usize, *mut exports::RespValue) -> u32;

/// Converts a code other than `DONE` to an error at this offset.
fn error(code: u32, offset: usize) -> Error {
    match code {
        exports::TOO_DEEP => Error::TooDeep(offset),
        exports::OUT_OF_RANGE => Error::OutOfRange(offset),
        code => Error::of(code, Some(offset), NOTHING),
    }
}

/// Returns the reply of this kind, if there is the kind.
fn made<'i>(
    kind: u32,
    number: i64,
    inside: &'i [u8],
    elements: Elements<'i>,
) -> Option<Reply<'i>> {
    Some(match kind {
        exports::RESP_SIMPLE => Reply::Simple(inside),
        exports::RESP_ERROR => Reply::Error(inside),
        exports::RESP_INTEGER => Reply::Integer(number),
        exports::RESP_BULK => Reply::Bulk(inside),
        exports::RESP_NULL_BULK => Reply::NullBulk,
        exports::RESP_ARRAY => Reply::Array(elements),
        exports::RESP_NULL_ARRAY => Reply::NullArray,
        exports::RESP_NULL => Reply::Null,
        exports::RESP_BOOLEAN => Reply::Boolean(number == 1),
        exports::RESP_DOUBLE => Reply::Double(inside),
        exports::RESP_BIG_NUMBER => Reply::BigNumber(inside),
        exports::RESP_BULK_ERROR => Reply::BulkError(inside),
        // (a format of three bytes, and a colon)
        exports::RESP_VERBATIM => Reply::Verbatim(&inside[..3], &inside[4..]),
        exports::RESP_MAP => Reply::Map(elements),
        exports::RESP_SET => Reply::Set(elements),
        exports::RESP_PUSH => Reply::Push(elements),
        exports::RESP_ATTRIBUTES => Reply::Attributed(elements),
        _ => return None,
    })
}

fn read(
    export: Export,
    bytes: &[u8],
    protocol: Protocol,
    max_depth: usize,
) -> Result<(Reply<'_>, &[u8]), Error> {
    let mut out = exports::RespValue::default();
    // SAFETY: the pointers are those of live borrows, and the bytes are only read. The call takes up to
    // 107 KiB of stack at `MAX_DEPTH` (measured); where there is less, the thread's guard page ends
    // the program.
    let code =
        unsafe { export(bytes.as_ptr(), bytes.len(), protocol.number(), max_depth, &mut out) };
    if code != exports::DONE {
        return Err(error(code, out.error_offset));
    }
    let inside = at(bytes, out.span);
    let elements = Elements { left: inside, count: out.elements, protocol };
    let reply = made(out.kind, out.number, inside, elements).ok_or(Error::Unknown(code))?;
    Ok((reply, &bytes[out.length..]))
}

/// Parses the Redis reply at the start of `bytes`, whose aggregates are nested at most `max_depth`
/// deep. Returns the reply and the rest of the input.
///
/// A call holds up to 32 bytes of memory for each byte of the reply, and 2 KiB for each level of
/// aggregates that has started (measured).
///
/// # Errors
///
/// `bytes` does not start with a reply. The offset is that of the first part that is rejected: the
/// line of a nested reply, or the bytes of a string with their line ending.
///
/// - [`Error::Invalid`] if that part is malformed. If the reply is incomplete, the offset is the
///   length of `bytes`.
/// - [`Error::OutOfRange`] if that line has an integer or a size that does not fit an `i64`, or an
///   aggregate has too many parts.
/// - [`Error::TooDeep`] if that line is the one of an aggregate that is nested too deep.
///
/// ```
/// use pergidau::resp::{self, Protocol, Reply};
///
/// let (reply, rest) = resp::reply(b"~2\r\n$3\r\nfoo\r\n,1.5\r\n+", Protocol::Resp3, 1)?;
/// let Reply::Set(elements) = reply else { panic!() };
/// let elements: Result<Vec<_>, _> = elements.collect();
/// assert_eq!(elements?, [Reply::Bulk(b"foo"), Reply::Double(b"1.5")]);
/// assert_eq!(rest, b"+");
/// # Ok::<(), pergidau::Error>(())
/// ```
pub fn reply(
    bytes: &[u8],
    protocol: Protocol,
    max_depth: usize,
) -> Result<(Reply<'_>, &[u8]), Error> {
    read(exports::exported_resp_reply, bytes, protocol, max_depth)
}

/// Like [`reply`], for partial input.
///
/// Each call parses from the first byte; for a long reply in many chunks, find its end with an
/// [`Extent`].
///
/// # Errors
///
/// [`Error::Incomplete`] if `bytes` does not start with a reply yet. The others are those of
/// [`reply`], regardless of what follows.
///
/// ```
/// use pergidau::{resp::{self, Protocol}, Error};
///
/// assert_eq!(resp::reply_partial(b"$6\r\nfoo", Protocol::Resp2, 0), Err(Error::Incomplete));
/// assert_eq!(resp::reply_partial(b"*1\r\n", Protocol::Resp2, 0), Err(Error::TooDeep(0)));
/// let large = b":9223372036854775808\r\n";
/// assert_eq!(resp::reply_partial(large, Protocol::Resp2, 0), Err(Error::OutOfRange(0)));
/// ```
pub fn reply_partial(
    bytes: &[u8],
    protocol: Protocol,
    max_depth: usize,
) -> Result<(Reply<'_>, &[u8]), Error> {
    read(exports::exported_resp_reply_partial, bytes, protocol, max_depth)
}

/// Writes a command as clients send it to the start of `buffer`, and returns its length. A command
/// is an array of bulk strings, the first of which is its name. Does not allocate.
///
/// # Errors
///
/// After an error the buffer is unchanged.
///
/// - [`Error::BufferTooSmall`] holds the length of the command.
/// - [`Error::Invalid`] if there are no parts.
///
/// ```
/// let mut buffer = [0; 64];
/// let length = pergidau::resp::write_command(&["GET".into(), "key".into()], &mut buffer)?;
/// assert_eq!(&buffer[..length], b"*2\r\n$3\r\nGET\r\n$3\r\nkey\r\n");
/// # Ok::<(), pergidau::Error>(())
/// ```
pub fn write_command(parts: &[Bytes<'_>], buffer: &mut [u8]) -> Result<usize, Error> {
    let (entries, count) = Bytes::given(parts);
    let mut out = 0;
    // SAFETY: the pointers are those of live borrows, and the entries and their bytes are only read. The
    // call takes up to 4 KiB of stack (measured); where there is less, the thread's guard page ends the
    // program.
    let code = unsafe {
        let (room, most) = (buffer.as_mut_ptr(), buffer.len());
        exports::exported_resp_command(entries, count, room, most, &mut out)
    };
    match code {
        exports::DONE => Ok(out),
        code => Err(Error::of(code, None, RequiredSize { entries: 0, bytes: out })),
    }
}

/// Appends a command to a vector, as [`write_command`] writes it. After an error the vector is
/// unchanged.
///
/// ```
/// let mut out = Vec::new();
/// pergidau::resp::append_command(&["PING"], &mut out)?;
/// assert_eq!(out, b"*1\r\n$4\r\nPING\r\n");
/// # Ok::<(), pergidau::Error>(())
/// ```
#[cfg(feature = "alloc")]
pub fn append_command<P: AsRef<[u8]>>(parts: &[P], out: &mut Vec<u8>) -> Result<(), Error> {
    let slices: Vec<_> = parts.iter().map(Bytes::from).collect();
    // A mark, up to 20 digits, and two line endings for each part; and a line.
    let expected = slices.iter().map(|it| it.get().len() + 25).sum::<usize>() + 23;
    append(out, expected, |buffer| write_command(&slices, buffer))
}

/// The state of a search for the end of a reply in input that arrives in chunks.
///
/// No call looks again at bytes that an earlier call scanned. So all calls for a reply take time
/// linear in its length, for any number of chunks, whereas [`reply_partial`] parses from the first
/// byte each time.
///
/// ```
/// use pergidau::resp::{self, Extent, Protocol, Reply};
///
/// let protocol = Protocol::Resp3;
/// let (mut bytes, mut extent, mut seen) = (Vec::new(), Extent::new(protocol), Vec::new());
/// for piece in [&b"$5\r\nhe"[..], b"llo\r\n:1\r", b"\n+"] {
///     bytes.extend(piece);
///     while let Some(length) = extent.advance(&bytes)? {
///         let (reply, _) = resp::reply(&bytes[..length], protocol, 1)?;
///         seen.push(format!("{reply:?}"));
///         bytes.drain(..length);
///         extent = Extent::new(protocol);
///     }
/// }
/// assert_eq!(seen, [format!("{:?}", Reply::Bulk(b"hello")), "Integer(1)".to_string()]);
/// # Ok::<(), pergidau::Error>(())
/// ```
#[derive(Clone, Debug, PartialEq, Eq)]
pub struct Extent {
    protocol: Protocol,
    state: exports::RespReplyState,
}

impl Extent {
    /// Returns the initial state.
    pub fn new(protocol: Protocol) -> Extent {
        Extent { protocol, state: exports::RespReplyState::default() }
    }

    /// Returns the length in bytes of the reply at the start of `bytes`, if it is complete.
    ///
    /// `bytes` must be the bytes of the previous call, followed by a new chunk; otherwise the
    /// result may be wrong. `None` means that the last line of the reply has not ended, or that
    /// bytes of a string are missing. The nesting depth of aggregates is not checked; [`reply`]
    /// checks it when it parses the bytes.
    ///
    /// # Errors
    ///
    /// [`Error::Invalid`] or [`Error::OutOfRange`] if `bytes` does not start with a reply,
    /// regardless of what follows, with the offset that [`reply`] gives.
    pub fn advance(&mut self, bytes: &[u8]) -> Result<Option<usize>, Error> {
        let (mut out, number) = (0, self.protocol.number());
        // SAFETY: the pointers are those of live borrows, and the bytes are only read. The call takes up
        // to 4 KiB of stack (measured); where there is less, the thread's guard page ends the program.
        let code = unsafe {
            let (from, count) = (bytes.as_ptr(), bytes.len());
            exports::exported_resp_extent(&mut self.state, from, count, number, &mut out)
        };
        match code {
            exports::DONE => Ok(Some(out)),
            exports::INCOMPLETE => Ok(None),
            code => Err(error(code, out)),
        }
    }
}

#[cfg(test)]
mod tests {
    use super::*;

    /// An iterator ends after an error, and reports this in advance.
    #[test]
    fn elements_end_behind_an_error() {
        let protocol = Protocol::Resp2;
        let mut elements = Elements { left: b":1\r\nx:2\r\n", count: 3, protocol };
        assert_eq!(elements.next(), Some(Ok(Reply::Integer(1))));
        assert_eq!(elements.len(), 2);
        assert_eq!(elements.next(), Some(Err(Error::Invalid(Some(0)))));
        assert_eq!(elements.len(), 0);
        assert_eq!(elements.next(), None);
    }
}
