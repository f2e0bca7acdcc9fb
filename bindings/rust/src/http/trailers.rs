//! Field lines without a first line.
use super::error::error_of;
use super::{find, Field};
use crate::{at, exports, Error};

/// Field lines that were read: names and values, as slices of the bytes.
#[derive(Clone, Copy, Debug)]
pub struct FieldLines<'i, 'f> {
    bytes: &'i [u8],
    length: usize,
    fields: &'f [Field],
}

impl<'i, 'f> FieldLines<'i, 'f> {
    /// Returns the names and values of the fields, in order. Values do not include the whitespace
    /// around them.
    pub fn fields(&self) -> impl ExactSizeIterator<Item = (&'i [u8], &'i [u8])> + 'f
    where
        'i: 'f,
    {
        let bytes = self.bytes;
        self.fields.iter().map(move |it| (at(bytes, it.name), at(bytes, it.value)))
    }

    /// Returns the value of the first field of this name, ignoring ASCII case.
    pub fn field(&self, name: &str) -> Option<&'i [u8]> {
        find(self.bytes, self.fields, name)
    }

    /// Returns the input after the empty line.
    pub fn rest(&self) -> &'i [u8] {
        &self.bytes[self.length..]
    }
}

/// Parses field lines (RFC 9112, section 5) up to the empty line after them, at the start of
/// `bytes`: a trailer section and the line ending after it. Does not allocate.
///
/// The offsets of the fields are written into `fields`. To the bytes of
/// [`Step::Trailers`](crate::http::Step::Trailers), append a CRLF.
///
/// # Errors
///
/// - [`Error::Incomplete`] if the empty line is not there, but more bytes can complete it.
/// - [`Error::BufferTooSmall`] if there are more fields than `fields` has entries; it holds their
///   number.
/// - [`Error::InvalidHead`] if `bytes` does not start with field lines and an empty line, regardless
///   of what follows; it holds the offset of the first invalid byte and the reason.
///
/// After an error the contents of `fields` are unspecified.
///
/// ```
/// let mut fields = [pergidau::http::Field::default(); 4];
/// let lines = pergidau::http::field_lines(b"Digest: a\r\n\r\nrest", &mut fields)?;
/// assert_eq!(lines.field("digest"), Some(&b"a"[..]));
/// assert_eq!(lines.rest(), b"rest");
/// # Ok::<(), pergidau::Error>(())
/// ```
pub fn field_lines<'i, 'f>(
    bytes: &'i [u8],
    fields: &'f mut [Field],
) -> Result<FieldLines<'i, 'f>, Error> {
    let mut out = exports::HttpFields::default();
    let (entries, count) = (fields.as_mut_ptr(), fields.len());
    // SAFETY: the pointers are those of live borrows, and the bytes are only read. The call takes up to
    // 4 KiB of stack (measured); where there is less, the thread's guard page ends the program.
    let code = unsafe {
        exports::exported_http_field_lines(bytes.as_ptr(), bytes.len(), entries, count, &mut out)
    };
    match code {
        exports::DONE => {
            Ok(FieldLines { bytes, length: out.length, fields: &fields[..out.fields] })
        }
        code => Err(error_of(code, out.error_offset, out.error, out.fields)),
    }
}
