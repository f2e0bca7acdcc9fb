//! Heads of responses.
use super::error::error_of;
use super::framing::{of_response, Framing};
use super::{find, Body, BodyError, Field};
use crate::exports;
use crate::{at, Error};
#[cfg(feature = "alloc")]
use alloc::vec::Vec;

/// The head of a response: its numbers, and its parts as slices of the bytes that were read.
#[derive(Clone, Copy, Debug)]
pub struct ResponseHead<'i, 'f> {
    bytes: &'i [u8],
    places: exports::HttpResponse,
    fields: &'f [Field],
}

impl<'i, 'f> ResponseHead<'i, 'f> {
    /// The status code, below 1000.
    pub fn status(&self) -> u16 {
        self.places.status
    }

    /// Returns the reason phrase: the text after the status code and a space. It may be empty;
    /// clients ignore it.
    pub fn reason(&self) -> &'i [u8] {
        at(self.bytes, self.places.reason)
    }

    /// The two numbers of the version, each below 10.
    pub fn version(&self) -> (u8, u8) {
        (self.places.major, self.places.minor)
    }

    /// Returns the names and values of the fields, in order. Values do not include the whitespace
    /// around them.
    pub fn fields(&self) -> impl ExactSizeIterator<Item = (&'i [u8], &'i [u8])> + 'f
    where
        'i: 'f,
    {
        let bytes = self.bytes;
        self.fields.iter().map(move |it| (at(bytes, it.name), at(bytes, it.value)))
    }

    /// Returns the value of the first field of this name, ignoring ASCII case.
    pub fn field(&self, name: &str) -> Option<&'i [u8]> {
        find(self.bytes, self.fields, name)
    }

    /// Returns where this response to a request of this method ends, or why a client must discard it
    /// and close the connection, and whether the connection persists after it. Parses nothing again,
    /// and does not allocate.
    ///
    /// ```
    /// use pergidau::http::{self, Body, Field};
    ///
    /// let text = b"HTTP/1.0 200 OK\r\nContent-Length: 3\r\nConnection: keep-alive\r\n\r\n";
    /// let mut fields = [Field::default(); 4];
    /// let framing = http::response_head(text, &mut fields)?.framing(b"GET");
    /// assert_eq!((framing.body, framing.persists), (Ok(Body::Length(3)), true));
    /// # Ok::<(), pergidau::Error>(())
    /// ```
    pub fn framing(&self, method: &[u8]) -> Framing<'i> {
        of_response(method, self.bytes, &self.places, self.fields)
    }

    /// Returns the length of the body, as [`framing`](ResponseHead::framing).
    pub fn body(&self, method: &[u8]) -> Result<Body, BodyError> {
        self.framing(method).body
    }

    /// Returns the input after the head.
    pub fn rest(&self) -> &'i [u8] {
        &self.bytes[self.places.length..]
    }
}

type Export =
    unsafe extern "C" fn(*const u8, usize, *mut Field, usize, *mut exports::HttpResponse) -> u32;

/// Returns the parts of the head that was written.
fn write(
    export: Export,
    bytes: &[u8],
    fields: &mut [Field],
) -> Result<exports::HttpResponse, Error> {
    let mut places = exports::HttpResponse::default();
    let (entries, count) = (fields.as_mut_ptr(), fields.len());
    // SAFETY: the pointers are those of live borrows, and the bytes are only read. The call takes up to
    // 4 KiB of stack (measured); where there is less, the thread's guard page ends the program.
    let code = unsafe { export(bytes.as_ptr(), bytes.len(), entries, count, &mut places) };
    match code {
        exports::DONE => Ok(places),
        code => Err(error_of(code, places.error_offset, places.error, places.fields)),
    }
}

fn read<'i, 'f>(
    export: Export,
    bytes: &'i [u8],
    fields: &'f mut [Field],
) -> Result<ResponseHead<'i, 'f>, Error> {
    let places = write(export, bytes, fields)?;
    Ok(ResponseHead { bytes, places, fields: &fields[..places.fields] })
}

/// Like [`response_head`]. If `fields` is too small, it grows to the number of fields.
///
/// ```
/// let mut fields = Vec::new();
/// let text = b"HTTP/1.1 200 OK\r\nServer: a\r\n\r\n";
/// let head = pergidau::http::response_head_grown(text, &mut fields)?;
/// assert_eq!(head.field("server"), Some(&b"a"[..]));
/// # Ok::<(), pergidau::Error>(())
/// ```
#[cfg(feature = "alloc")]
pub fn response_head_grown<'i, 'f>(
    bytes: &'i [u8],
    fields: &'f mut Vec<Field>,
) -> Result<ResponseHead<'i, 'f>, Error> {
    let places = match write(exports::exported_http_response_head, bytes, fields) {
        Err(Error::BufferTooSmall(required)) => {
            fields.resize(required.entries, Field::default());
            write(exports::exported_http_response_head, bytes, fields)
        }
        found => found,
    }?;
    Ok(ResponseHead { bytes, places, fields: &fields[..places.fields] })
}

/// Parses the head of an HTTP/1.1 response (RFC 9112) at the start of `bytes`. Does not allocate.
///
/// The offsets of the fields are written into `fields`.
///
/// # Errors
///
/// - [`Error::BufferTooSmall`] if the head has more fields than `fields` has entries; it holds the
///   number of fields.
/// - [`Error::InvalidHead`] if `bytes` does not start with a head; it holds the offset of the first
///   invalid byte and the reason, or the end of the input.
///
/// After an error the contents of `fields` are unspecified.
///
/// ```
/// let mut fields = [pergidau::http::Field::default(); 16];
/// let text = b"HTTP/1.1 404 Not Found\r\nServer: a\r\n\r\nbody";
/// let head = pergidau::http::response_head(text, &mut fields)?;
/// assert_eq!((head.status(), head.reason()), (404, &b"Not Found"[..]));
/// assert_eq!(head.fields().next(), Some((&b"Server"[..], &b"a"[..])));
/// assert_eq!(head.rest(), b"body");
/// # Ok::<(), pergidau::Error>(())
/// ```
pub fn response_head<'i, 'f>(
    bytes: &'i [u8],
    fields: &'f mut [Field],
) -> Result<ResponseHead<'i, 'f>, Error> {
    read(exports::exported_http_response_head, bytes, fields)
}

/// Like [`response_head`], for partial input.
///
/// # Errors
///
/// - [`Error::Incomplete`] if `bytes` does not start with a head, but more bytes can complete one.
/// - [`Error::InvalidHead`] if `bytes` does not start with a head, regardless of what follows; it
///   holds the offset of the first invalid byte and the reason.
///
/// ```
/// let head = pergidau::http::response_head_partial(b"HTTP/1.1 20", &mut []);
/// assert_eq!(head.unwrap_err(), pergidau::Error::Incomplete);
/// ```
pub fn response_head_partial<'i, 'f>(
    bytes: &'i [u8],
    fields: &'f mut [Field],
) -> Result<ResponseHead<'i, 'f>, Error> {
    read(exports::exported_http_response_head_partial, bytes, fields)
}
