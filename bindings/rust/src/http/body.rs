//! The lengths of bodies.
use crate::exports;
use core::fmt;

/// How long the body of a message is (RFC 9112, section 6.3).
#[derive(Clone, Copy, Debug, PartialEq, Eq)]
pub enum Body {
    /// The message has no body. The next message starts after its head.
    None,
    /// The body is chunked: decode it with [`Chunked`](crate::http::Chunked). If other codings
    /// precede `chunked`, the content is encoded by these.
    Chunked,
    /// The body has this number of bytes.
    Length(u64),
    /// The body ends with the connection.
    UntilClose,
    /// The connection has become a tunnel.
    Tunnel,
}

/// The reason why a message must be rejected.
#[derive(Clone, Copy, Debug, PartialEq, Eq)]
#[non_exhaustive]
pub enum BodyError {
    /// The bytes do not start with a head.
    Head,
    /// A request of HTTP/1.1 has no Host field.
    MissingHost,
    /// A request has more than one Host field.
    ManyHosts,
    /// The version is before 1.1, and there is a Transfer-Encoding field.
    CodingBeforeVersion,
    /// There are both a Transfer-Encoding and a Content-Length field.
    LengthAndCoding,
    /// A transfer coding comes after `chunked`, possibly `chunked` again.
    ChunkedNotLast,
    /// The last transfer coding of a request is not `chunked`.
    NotChunked,
    /// Two Content-Length values differ, be it in leading zeros or because one is empty.
    LengthsDiffer,
    /// The Content-Length is not a number.
    LengthNotANumber,
    /// The Content-Length is 2<sup>64</sup> or more.
    LengthTooLarge,
    /// The value of the Host field is not a host with an optional port.
    InvalidHost,
    /// The target of a request is in no form that its method may have.
    InvalidTarget,
    /// An element of Transfer-Encoding is not a token with parameters.
    InvalidCoding,
    /// Memory allocation failed.
    NoMemory,
    /// A number that this crate does not know, from another version of the library.
    Unknown(u32),
}

impl fmt::Display for BodyError {
    fn fmt(&self, f: &mut fmt::Formatter<'_>) -> fmt::Result {
        f.write_str(match self {
            BodyError::Head => "invalid head",
            BodyError::MissingHost => "missing Host field",
            BodyError::ManyHosts => "more than one Host field",
            BodyError::CodingBeforeVersion => "Transfer-Encoding in a version before HTTP/1.1",
            BodyError::LengthAndCoding => "both Transfer-Encoding and Content-Length",
            BodyError::ChunkedNotLast => "transfer coding after chunked",
            BodyError::NotChunked => "last transfer coding of the request is not chunked",
            BodyError::LengthsDiffer => "Content-Length values differ",
            BodyError::LengthNotANumber => "Content-Length is not a number",
            BodyError::LengthTooLarge => "Content-Length too large",
            BodyError::InvalidHost => "invalid Host field",
            BodyError::InvalidTarget => "invalid request target",
            BodyError::InvalidCoding => "invalid transfer coding",
            BodyError::NoMemory => "memory allocation failed",
            BodyError::Unknown(number) => {
                return write!(f, "unknown number {number} from the library");
            }
        })
    }
}

#[cfg(feature = "std")]
impl std::error::Error for BodyError {}

/// Converts what a call wrote.
pub(super) fn told(code: u32, out: &exports::HttpBody) -> Result<Body, BodyError> {
    match (code, out.kind) {
        (exports::DONE, exports::HTTP_BODY_NONE) => Ok(Body::None),
        (exports::DONE, exports::HTTP_BODY_CHUNKED) => Ok(Body::Chunked),
        (exports::DONE, exports::HTTP_BODY_LENGTH) => Ok(Body::Length(out.length)),
        (exports::DONE, exports::HTTP_BODY_UNTIL_CLOSE) => Ok(Body::UntilClose),
        (exports::DONE, exports::HTTP_BODY_TUNNEL) => Ok(Body::Tunnel),
        (exports::NO_MEMORY, _) => Err(BodyError::NoMemory),
        (exports::INVALID, _) => Err(reason_of(out.error)),
        (exports::DONE, kind) => Err(BodyError::Unknown(kind)),
        (code, _) => Err(BodyError::Unknown(code)),
    }
}

fn reason_of(number: u32) -> BodyError {
    match number {
        exports::HTTP_ERROR_HEAD => BodyError::Head,
        exports::HTTP_ERROR_MISSING_HOST => BodyError::MissingHost,
        exports::HTTP_ERROR_MANY_HOSTS => BodyError::ManyHosts,
        exports::HTTP_ERROR_CODING_BEFORE_VERSION => BodyError::CodingBeforeVersion,
        exports::HTTP_ERROR_LENGTH_AND_CODING => BodyError::LengthAndCoding,
        exports::HTTP_ERROR_CHUNKED_NOT_LAST => BodyError::ChunkedNotLast,
        exports::HTTP_ERROR_NOT_CHUNKED => BodyError::NotChunked,
        exports::HTTP_ERROR_LENGTHS_DIFFER => BodyError::LengthsDiffer,
        exports::HTTP_ERROR_LENGTH_NOT_A_NUMBER => BodyError::LengthNotANumber,
        exports::HTTP_ERROR_LENGTH_TOO_LARGE => BodyError::LengthTooLarge,
        exports::HTTP_ERROR_INVALID_HOST => BodyError::InvalidHost,
        exports::HTTP_ERROR_INVALID_TARGET => BodyError::InvalidTarget,
        exports::HTTP_ERROR_INVALID_CODING => BodyError::InvalidCoding,
        number => BodyError::Unknown(number),
    }
}

/// Returns the length of the body of the request whose head is at the start of `bytes` (RFC 9112,
/// section 6.3). [`Head::framing`](crate::http::Head::framing) does so for a head that was read,
/// without parsing it again.
///
/// A call holds up to 32 bytes of memory for each byte of the head (measured).
///
/// # Errors
///
/// The reason why a server must respond with status 400 and close the connection. A request with
/// both Transfer-Encoding and Content-Length is rejected.
///
/// ```
/// use pergidau::http::{request_body, Body, BodyError};
///
/// let head = b"POST / HTTP/1.1\r\nHost: a\r\nContent-Length: 42\r\n\r\n";
/// assert_eq!(request_body(head), Ok(Body::Length(42)));
/// let head = b"POST / HTTP/1.1\r\nHost: a\r\nContent-Length: +42\r\n\r\n";
/// assert_eq!(request_body(head), Err(BodyError::LengthNotANumber));
/// ```
pub fn request_body(bytes: &[u8]) -> Result<Body, BodyError> {
    let mut out = exports::HttpBody::default();
    // SAFETY: the pointers are those of live borrows, and the bytes are only read. The call takes up to
    // 4 KiB of stack (measured); where there is less, the thread's guard page ends the program.
    let code = unsafe { exports::exported_http_request_body(bytes.as_ptr(), bytes.len(), &mut out) };
    told(code, &out)
}

/// Like [`request_body`], for the response to a request of this method.
/// [`ResponseHead::framing`](crate::http::ResponseHead::framing) parses no head again.
///
/// ```
/// use pergidau::http::{response_body, Body};
///
/// let head = b"HTTP/1.1 200 OK\r\nContent-Length: 42\r\n\r\n";
/// assert_eq!(response_body(b"GET", head), Ok(Body::Length(42)));
/// assert_eq!(response_body(b"HEAD", head), Ok(Body::None));
/// ```
pub fn response_body(method: &[u8], bytes: &[u8]) -> Result<Body, BodyError> {
    let mut out = exports::HttpBody::default();
    let (start, length) = (method.as_ptr(), method.len());
    // SAFETY: the pointers are those of live borrows, and the bytes are only read. The call takes up to
    // 4 KiB of stack (measured); where there is less, the thread's guard page ends the program.
    let code = unsafe {
        exports::exported_http_response_body(start, length, bytes.as_ptr(), bytes.len(), &mut out)
    };
    told(code, &out)
}
