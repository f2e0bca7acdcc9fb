//! Heads of HTTP/1.1 requests and responses, from complete or partial input, and chunked bodies,
//! from partial input.
//!
//! ```
//! use pergidau::http::{self, Field};
//!
//! let request = b"GET /hello.txt HTTP/1.1\r\nHost: www.example.com\r\n\r\nbody";
//! let mut fields = [Field::default(); 16];
//! let head = http::head(request, &mut fields)?;
//! assert_eq!((head.method(), head.target()), (&b"GET"[..], &b"/hello.txt"[..]));
//! assert_eq!(head.version(), (1, 1));
//! assert_eq!(head.rest(), b"body");
//! # Ok::<(), pergidau::Error>(())
//! ```
mod body;
mod error;
mod extent;
mod framing;
mod response;
mod trailers;

pub use self::body::{request_body, response_body, Body, BodyError};
pub use self::error::HeadError;
pub use self::extent::HeadExtent;
pub use self::framing::Framing;
#[cfg(feature = "alloc")]
pub use self::response::response_head_grown;
pub use self::response::{response_head, response_head_partial, ResponseHead};
pub use self::trailers::{field_lines, FieldLines};
pub use crate::exports::Field;

use self::error::error_of;
use crate::exports;
use crate::{at, Error};
#[cfg(feature = "alloc")]
use alloc::vec::Vec;
use core::fmt;

/// Returns the value of the first field of this name, ignoring ASCII case.
fn find<'i>(bytes: &'i [u8], fields: &[Field], name: &str) -> Option<&'i [u8]> {
    let mut index = 0;
    let (entries, count) = (fields.as_ptr(), fields.len());
    // SAFETY: the pointers are those of live borrows, and only the index is written. The call takes up
    // to 1 KiB of stack (measured); where there is less, the thread's guard page ends the program.
    let code = unsafe {
        exports::exported_http_field(
            bytes.as_ptr(), bytes.len(), entries, count, name.as_ptr(), name.len(), &mut index,
        )
    };
    (code == exports::DONE).then(|| at(bytes, fields[index].value))
}

/// The head of a request: its parts, as slices of the bytes that were read.
#[derive(Clone, Copy, Debug)]
pub struct Head<'i, 'f> {
    bytes: &'i [u8],
    places: exports::HttpRequest,
    fields: &'f [Field],
}

impl<'i, 'f> Head<'i, 'f> {
    /// The method.
    pub fn method(&self) -> &'i [u8] {
        at(self.bytes, self.places.method)
    }

    /// The request target.
    pub fn target(&self) -> &'i [u8] {
        at(self.bytes, self.places.target)
    }

    /// The two numbers of the version, each below 10.
    pub fn version(&self) -> (u8, u8) {
        (self.places.major, self.places.minor)
    }

    /// Returns the names and values of the fields, in order. Values do not include the whitespace
    /// around them.
    pub fn fields(&self) -> impl ExactSizeIterator<Item = (&'i [u8], &'i [u8])> + 'f
    where
        'i: 'f,
    {
        let bytes = self.bytes;
        self.fields.iter().map(move |it| (at(bytes, it.name), at(bytes, it.value)))
    }

    /// Returns the value of the first field of this name, ignoring ASCII case.
    ///
    /// ```
    /// let mut fields = [pergidau::http::Field::default(); 4];
    /// let head = pergidau::http::head(b"GET / HTTP/1.1\r\nHost: a\r\n\r\n", &mut fields)?;
    /// assert_eq!((head.field("HOST"), head.field("hosts")), (Some(&b"a"[..]), None));
    /// # Ok::<(), pergidau::Error>(())
    /// ```
    pub fn field(&self, name: &str) -> Option<&'i [u8]> {
        find(self.bytes, self.fields, name)
    }

    /// Returns where the request ends, or why a server must respond with status 400 and close the
    /// connection, and whether the connection persists after it. Parses nothing again, and does not
    /// allocate.
    ///
    /// ```
    /// use pergidau::http::{self, Body, Field};
    ///
    /// let text = b"PUT / HTTP/1.1\r\nHost: a\r\nContent-Length: 3\r\nConnection: close\r\n\r\n";
    /// let mut fields = [Field::default(); 4];
    /// let framing = http::head(text, &mut fields)?.framing();
    /// assert_eq!((framing.body, framing.persists), (Ok(Body::Length(3)), false));
    /// let framing = http::head(b"GET / HTTP/1.1\r\nHost: a b\r\n\r\n", &mut fields)?.framing();
    /// assert_eq!(framing.rejected, Some(&b"a b"[..]));
    /// # Ok::<(), pergidau::Error>(())
    /// ```
    pub fn framing(&self) -> Framing<'i> {
        framing::of_request(self.bytes, &self.places, self.fields)
    }

    /// Returns the length of the body, as [`framing`](Head::framing).
    pub fn body(&self) -> Result<Body, BodyError> {
        self.framing().body
    }

    /// Returns the input after the head.
    pub fn rest(&self) -> &'i [u8] {
        &self.bytes[self.places.length..]
    }
}

type Export = unsafe extern "C" fn(*const u8, usize, *mut Field, usize, *mut exports::HttpRequest) -> u32;

/// Returns the parts of the head that was written.
fn write(export: Export, bytes: &[u8], fields: &mut [Field]) -> Result<exports::HttpRequest, Error> {
    let mut places = exports::HttpRequest::default();
    let (entries, count) = (fields.as_mut_ptr(), fields.len());
    // SAFETY: the pointers are those of live borrows, and the bytes are only read. The call takes up to
    // 4 KiB of stack (measured); where there is less, the thread's guard page ends the program.
    let code = unsafe { export(bytes.as_ptr(), bytes.len(), entries, count, &mut places) };
    match code {
        exports::DONE => Ok(places),
        code => Err(error_of(code, places.error_offset, places.error, places.fields)),
    }
}

fn read<'i, 'f>(
    export: Export,
    bytes: &'i [u8],
    fields: &'f mut [Field],
) -> Result<Head<'i, 'f>, Error> {
    let places = write(export, bytes, fields)?;
    Ok(Head { bytes, places, fields: &fields[..places.fields] })
}

/// Parses the head of an HTTP/1.1 request (RFC 9112) at the start of `bytes`. Does not allocate.
///
/// The offsets of the fields are written into `fields`. Empty lines before the request line are not
/// skipped.
///
/// # Errors
///
/// - [`Error::BufferTooSmall`] if the head has more fields than `fields` has entries; it holds the
///   number of fields.
/// - [`Error::InvalidHead`] if `bytes` does not start with a head; it holds the offset of the first
///   invalid byte and the reason, or the end of the input.
///
/// After an error the contents of `fields` are unspecified.
///
/// ```
/// let mut fields = [pergidau::http::Field::default(); 16];
/// let head = pergidau::http::head(b"GET / HTTP/1.1\r\nHost: a\r\n\r\nrest", &mut fields)?;
/// assert_eq!(head.fields().next(), Some((&b"Host"[..], &b"a"[..])));
/// assert_eq!(head.rest(), b"rest");
/// # Ok::<(), pergidau::Error>(())
/// ```
pub fn head<'i, 'f>(bytes: &'i [u8], fields: &'f mut [Field]) -> Result<Head<'i, 'f>, Error> {
    read(exports::exported_http_head, bytes, fields)
}

/// Like [`head`]. If `fields` is too small, it grows to the number of fields.
///
/// ```
/// let mut fields = Vec::new();
/// let head = pergidau::http::head_grown(b"GET / HTTP/1.1\r\nHost: a\r\n\r\n", &mut fields)?;
/// assert_eq!(head.field("host"), Some(&b"a"[..]));
/// # Ok::<(), pergidau::Error>(())
/// ```
#[cfg(feature = "alloc")]
pub fn head_grown<'i, 'f>(
    bytes: &'i [u8],
    fields: &'f mut Vec<Field>,
) -> Result<Head<'i, 'f>, Error> {
    let places = match write(exports::exported_http_head, bytes, fields) {
        Err(Error::BufferTooSmall(required)) => {
            fields.resize(required.entries, Field::default());
            write(exports::exported_http_head, bytes, fields)
        }
        found => found,
    }?;
    Ok(Head { bytes, places, fields: &fields[..places.fields] })
}

/// Like [`head`], for partial input.
///
/// Each call parses from the first byte; for a head in many chunks, find its end with a
/// [`HeadExtent`].
///
/// # Errors
///
/// - [`Error::Incomplete`] if `bytes` does not start with a head, but more bytes can complete one.
/// - [`Error::InvalidHead`] if `bytes` does not start with a head, regardless of what follows; it
///   holds the offset of the first invalid byte and the reason.
///
/// ```
/// let head = pergidau::http::head_partial(b"GET / HTT", &mut []);
/// assert_eq!(head.unwrap_err(), pergidau::Error::Incomplete);
/// ```
pub fn head_partial<'i, 'f>(
    bytes: &'i [u8],
    fields: &'f mut [Field],
) -> Result<Head<'i, 'f>, Error> {
    read(exports::exported_http_head_partial, bytes, fields)
}

/// A part of a chunked body.
#[derive(Clone, Copy, Debug, PartialEq, Eq)]
pub enum Step<'i> {
    /// Data of a chunk, one byte or more.
    Data(&'i [u8]),
    /// Bytes of the trailer section, one or more. All of them together are complete field lines,
    /// each with its line ending.
    Trailers(&'i [u8]),
    /// The end of the body. The remaining bytes follow the body.
    End,
    /// All bytes are taken, and more are needed.
    More,
}

/// The reason why a byte of a chunked body is invalid.
#[derive(Clone, Copy, Debug, PartialEq, Eq)]
#[non_exhaustive]
pub enum ChunkedError {
    /// A size line does not start with a hexadecimal digit.
    Size,
    /// The byte is invalid in a size line.
    SizeLine,
    /// With this digit the size is 2<sup>64</sup> or more.
    SizeTooLarge,
    /// There are more bytes than the limit allows before the next data, or before the end.
    SizeLineTooLong,
    /// The data of a chunk is not followed by a carriage return and a line feed.
    DataEnd,
    /// The byte can continue neither a field line nor the line ending after the trailer section.
    Trailers,
    /// The trailer section has more bytes than the limit allows.
    TrailersTooLong,
    /// A number that this crate does not know, from another version of the library.
    Unknown(u32),
}

impl fmt::Display for ChunkedError {
    fn fmt(&self, f: &mut fmt::Formatter<'_>) -> fmt::Result {
        match self {
            ChunkedError::Size => f.write_str("expected a chunk size"),
            ChunkedError::SizeLine => f.write_str("invalid byte in chunk size line"),
            ChunkedError::SizeTooLarge => f.write_str("chunk size too large"),
            ChunkedError::SizeLineTooLong => f.write_str("chunk size line too long"),
            ChunkedError::DataEnd => f.write_str("expected CRLF after chunk data"),
            ChunkedError::Trailers => f.write_str("invalid byte in trailer section"),
            ChunkedError::TrailersTooLong => f.write_str("trailer section too long"),
            ChunkedError::Unknown(number) => write!(f, "unknown number {number} from the library"),
        }
    }
}

#[cfg(feature = "std")]
impl std::error::Error for ChunkedError {}

impl ChunkedError {
    /// Converts a number of the library to an error.
    fn of(number: u32) -> ChunkedError {
        match number {
            exports::CHUNKED_ERROR_SIZE => ChunkedError::Size,
            exports::CHUNKED_ERROR_SIZE_LINE => ChunkedError::SizeLine,
            exports::CHUNKED_ERROR_SIZE_TOO_LARGE => ChunkedError::SizeTooLarge,
            exports::CHUNKED_ERROR_SIZE_LINE_TOO_LONG => ChunkedError::SizeLineTooLong,
            exports::CHUNKED_ERROR_DATA_END => ChunkedError::DataEnd,
            exports::CHUNKED_ERROR_TRAILERS => ChunkedError::Trailers,
            exports::CHUNKED_ERROR_TRAILERS_TOO_LONG => ChunkedError::TrailersTooLong,
            number => ChunkedError::Unknown(number),
        }
    }
}

/// The default limit for the bytes between data.
const SIZE_LINE: usize = 4096;
/// The default limit for the bytes of the trailer section.
const TRAILERS: usize = 8192;

/// The state of a decoder for chunked bodies that arrive in chunks of any size.
///
/// No call looks again at bytes that an earlier call consumed. It does not allocate. A copy resumes
/// at the same point.
///
/// ```
/// use pergidau::http::{Chunked, Step};
///
/// let (mut body, mut content) = (Chunked::new(), Vec::new());
/// 'pieces: for mut piece in [&b"4\r\nWi"[..], b"ki\r\n0\r", b"\n\r\nrest"] {
///     loop {
///         match body.advance(&mut piece)? {
///             Step::Data(data) => content.extend_from_slice(data),
///             Step::Trailers(_) => {}
///             Step::More => break,
///             Step::End => {
///                 assert_eq!(piece, b"rest");
///                 break 'pieces;
///             }
///         }
///     }
/// }
/// assert_eq!(content, b"Wiki");
/// # Ok::<(), pergidau::http::ChunkedError>(())
/// ```
#[derive(Clone, Copy, Debug, PartialEq, Eq)]
pub struct Chunked {
    state: exports::ChunkedState,
}

impl Default for Chunked {
    fn default() -> Chunked {
        Chunked::new()
    }
}

impl Chunked {
    /// Returns a decoder at the start of a body. At most 4,096 bytes may separate data, and the
    /// trailer section may have at most 8,192 bytes.
    ///
    /// ```
    /// use pergidau::http::Chunked;
    ///
    /// assert_eq!(Chunked::new(), Chunked::with_limits(4096, 8192));
    /// ```
    pub fn new() -> Chunked {
        Chunked::with_limits(SIZE_LINE, TRAILERS)
    }

    /// Like [`new`](Chunked::new), with limits: at most `size_line` bytes between data, and at most
    /// `trailers` bytes in the trailer section.
    ///
    /// ```
    /// use pergidau::http::{Chunked, ChunkedError};
    ///
    /// let mut body = Chunked::with_limits(3, 0);
    /// assert_eq!(body.advance(&mut &b"0;ab"[..]), Err(ChunkedError::SizeLineTooLong));
    /// ```
    pub fn with_limits(size_line: usize, trailers: usize) -> Chunked {
        let state = exports::ChunkedState {
            place: 1,
            room: size_line,
            size_line,
            trailer_room: trailers,
            trailers,
            ..exports::ChunkedState::default()
        };
        Chunked { state }
    }

    /// Consumes a prefix of `bytes`, and returns it as a [`Step`]; or consumes all of `bytes`, and
    /// returns [`Step::More`].
    ///
    /// The bytes of the next call must follow those that were consumed. Extensions are skipped. The
    /// data of all steps together are the content of the body, in order, however the input is
    /// split.
    ///
    /// # Errors
    ///
    /// Fails at the first byte that no body can continue with, or that exceeds a limit. `bytes`
    /// then starts with that byte, and further calls give the same error.
    pub fn advance<'i>(&mut self, bytes: &mut &'i [u8]) -> Result<Step<'i>, ChunkedError> {
        let all: &'i [u8] = bytes;
        let mut step = exports::ChunkedStep::default();
        // SAFETY: the pointers are those of live borrows, and the bytes are only read. The call takes up
        // to 4 KiB of stack (measured); where there is less, the thread's guard page ends the program.
        let code = unsafe {
            exports::exported_http_chunked(&mut self.state, all.as_ptr(), all.len(), &mut step)
        };
        *bytes = &all[step.taken..];
        match (code, step.kind) {
            (exports::DONE, exports::CHUNKED_DATA) => Ok(Step::Data(at(all, step.span))),
            (exports::DONE, exports::CHUNKED_TRAILERS) => Ok(Step::Trailers(at(all, step.span))),
            (exports::END, _) => Ok(Step::End),
            (exports::INCOMPLETE, _) => Ok(Step::More),
            (exports::INVALID, _) => Err(ChunkedError::of(step.error)),
            (exports::DONE, kind) => Err(ChunkedError::Unknown(kind)),
            (code, _) => Err(ChunkedError::Unknown(code)),
        }
    }
}
