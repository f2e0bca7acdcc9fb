//! Where heads end.
use super::{field_lines, head_partial, response_head_partial};
use crate::{exports, Error, NOTHING};

/// What a search looks for.
#[derive(Clone, Copy, Debug, Default, PartialEq, Eq)]
enum Kind {
    #[default]
    Request,
    Response,
    FieldLines,
}

/// The state of a search for the end of the head of a request or response, or of field lines, in
/// input that arrives in chunks.
///
/// No call looks again at bytes that an earlier call scanned. So all calls for a head take time
/// linear in its length, for any number of chunks, whereas
/// [`head_partial`](crate::http::head_partial) parses from the first byte each time.
///
/// ```
/// use pergidau::http::{self, Field, HeadExtent};
///
/// let (mut bytes, mut extent, mut targets) = (Vec::new(), HeadExtent::new(), Vec::new());
/// for piece in [&b"GET /a HTTP/1.1\r"[..], b"\n\r\nGET /b HT", b"TP/1.1\r\nHost: a\r\n\r\n"] {
///     bytes.extend(piece);
///     while let Some(length) = extent.advance(&bytes)? {
///         let mut fields = [Field::default(); 4];
///         targets.push(http::head(&bytes[..length], &mut fields)?.target().to_vec());
///         bytes.drain(..length);
///         extent = HeadExtent::new();
///     }
/// }
/// assert_eq!(targets, [b"/a", b"/b"]);
/// # Ok::<(), pergidau::Error>(())
/// ```
#[derive(Clone, Debug, Default, PartialEq, Eq)]
pub struct HeadExtent {
    state: exports::HttpHeadState,
    kind: Kind,
}

impl HeadExtent {
    /// Returns the initial state for the head of a request.
    pub fn new() -> HeadExtent {
        HeadExtent::default()
    }

    /// Returns the initial state for the head of a response.
    ///
    /// ```
    /// use pergidau::http::HeadExtent;
    ///
    /// let mut extent = HeadExtent::of_response();
    /// assert_eq!(extent.advance(b"HTTP/1.1 200 OK\r")?, None);
    /// assert_eq!(extent.advance(b"HTTP/1.1 200 OK\r\n\r\nbody")?, Some(19));
    /// # Ok::<(), pergidau::Error>(())
    /// ```
    pub fn of_response() -> HeadExtent {
        HeadExtent { kind: Kind::Response, ..HeadExtent::default() }
    }

    /// Returns the initial state for field lines and the empty line after them, such as a trailer
    /// section.
    ///
    /// ```
    /// use pergidau::http::HeadExtent;
    ///
    /// let mut extent = HeadExtent::of_field_lines();
    /// assert_eq!(extent.advance(b"Digest: a\r")?, None);
    /// assert_eq!(extent.advance(b"Digest: a\r\n\r\nrest")?, Some(13));
    /// # Ok::<(), pergidau::Error>(())
    /// ```
    pub fn of_field_lines() -> HeadExtent {
        HeadExtent { kind: Kind::FieldLines, ..HeadExtent::default() }
    }

    /// Returns the length in bytes of the head at the start of `bytes`, if it is complete.
    ///
    /// `bytes` must be the bytes of the previous call, followed by a new chunk; otherwise the
    /// result may be wrong. `None` means that more bytes can complete a head.
    ///
    /// # Errors
    ///
    /// [`Error::InvalidHead`] if `bytes` does not start with a head, regardless of what follows; it
    /// holds the offset of the first invalid byte and the reason.
    pub fn advance(&mut self, bytes: &[u8]) -> Result<Option<usize>, Error> {
        let export = match self.kind {
            Kind::Request => exports::exported_http_head_extent,
            Kind::Response => exports::exported_http_response_head_extent,
            Kind::FieldLines => exports::exported_http_field_lines_extent,
        };
        let mut out = 0;
        // SAFETY: the pointers are those of live borrows, and the bytes are only read. The call takes up
        // to 4 KiB of stack (measured); where there is less, the thread's guard page ends the program.
        let code = unsafe { export(&mut self.state, bytes.as_ptr(), bytes.len(), &mut out) };
        match code {
            exports::DONE => Ok(Some(out)),
            exports::INCOMPLETE => Ok(None),
            code => Err(self.reason(bytes).unwrap_or(Error::of(code, Some(out), NOTHING))),
        }
    }

    /// Returns the error of the invalid head at the start of `bytes`, with its reason.
    fn reason(&self, bytes: &[u8]) -> Option<Error> {
        let error = match self.kind {
            Kind::Request => head_partial(bytes, &mut []).err(),
            Kind::Response => response_head_partial(bytes, &mut []).err(),
            Kind::FieldLines => field_lines(bytes, &mut []).err(),
        };
        error.filter(|it| matches!(it, Error::InvalidHead { .. }))
    }
}
