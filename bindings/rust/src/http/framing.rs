//! Where a message ends whose head was read, and whether the connection persists.
use super::body::told;
use super::{Body, BodyError, Field};
use crate::{at, exports};

/// Where a message ends, or why it must be rejected, and whether the connection persists after it.
#[derive(Clone, Copy, Debug, PartialEq, Eq)]
pub struct Framing<'i> {
    /// The length of the body, or the reason to reject the message.
    pub body: Result<Body, BodyError>,
    /// What is rejected with [`BodyError::InvalidTarget`] (the target), [`BodyError::ManyHosts`] (the
    /// name of the second Host field) and [`BodyError::InvalidHost`] (its value), as a slice of the
    /// bytes that were read.
    pub rejected: Option<&'i [u8]>,
    /// Whether the connection persists after the message (RFC 9112, section 9.3); `false` after an
    /// error.
    pub persists: bool,
}

fn framing(bytes: &[u8], code: u32, out: exports::HttpFraming) -> Framing<'_> {
    let rejected = (out.rejected != exports::Span::default()).then(|| at(bytes, out.rejected));
    Framing { body: told(code, &out.body), rejected, persists: out.persists }
}

/// Returns the framing of a request whose head was read from these bytes.
pub(super) fn of_request<'i>(
    bytes: &'i [u8],
    head: &exports::HttpRequest,
    fields: &[Field],
) -> Framing<'i> {
    let mut out = exports::HttpFraming::default();
    let (start, length, count) = (bytes.as_ptr(), bytes.len(), fields.len());
    // SAFETY: the pointers are those of live borrows, and only the output is written. The call takes up
    // to 4 KiB of stack (measured); where there is less, the thread's guard page ends the program.
    let code = unsafe {
        exports::exported_http_request_framing(
            start, length, fields.as_ptr(), count, head, &mut out,
        )
    };
    framing(bytes, code, out)
}

/// Likewise of the response to a request of this method.
pub(super) fn of_response<'i>(
    method: &[u8],
    bytes: &'i [u8],
    head: &exports::HttpResponse,
    fields: &[Field],
) -> Framing<'i> {
    let mut out = exports::HttpFraming::default();
    let (start, length, count) = (bytes.as_ptr(), bytes.len(), fields.len());
    // SAFETY: as in `of_request`.
    let code = unsafe {
        exports::exported_http_response_framing(
            method.as_ptr(), method.len(), start, length, fields.as_ptr(), count, head, &mut out,
        )
    };
    framing(bytes, code, out)
}
