//! Writing strings.
#[cfg(feature = "alloc")]
use crate::bytes::append;
use crate::{exports, Error, RequiredSize};
#[cfg(feature = "alloc")]
use alloc::vec::Vec;

/// Writes a text as a JSON string (RFC 8259), in quotes, to the start of `buffer`, and returns its
/// length. Does not allocate.
///
/// Only a quote, a backslash and the characters below U+0020 are escaped, as in RFC 8785. The string
/// has at most six bytes for each byte of the text, and two more. [`unescape`](super::unescape) reads
/// the same text from it.
///
/// # Errors
///
/// [`Error::BufferTooSmall`] holds the length of the string. The buffer is unchanged.
///
/// ```
/// let mut buffer = [0; 16];
/// let length = pergidau::json::write_string("a\n\"b\"", &mut buffer)?;
/// assert_eq!(&buffer[..length], b"\"a\\n\\\"b\\\"\"");
/// # Ok::<(), pergidau::Error>(())
/// ```
pub fn write_string(text: &str, buffer: &mut [u8]) -> Result<usize, Error> {
    let mut out = 0;
    // SAFETY: the pointers are those of live borrows, and the text is only read. The call takes up to
    // 4 KiB of stack (measured); with less, the thread's guard page stops the program.
    let code = unsafe {
        let (room, most) = (buffer.as_mut_ptr(), buffer.len());
        exports::exported_json_write_string(text.as_ptr(), text.len(), room, most, &mut out)
    };
    match code {
        exports::DONE => Ok(out),
        code => Err(Error::of(code, None, RequiredSize { entries: 0, bytes: out })),
    }
}

/// Appends a JSON string to a vector, as [`write_string`] writes it. After an error the vector is
/// unchanged.
///
/// ```
/// let mut out = Vec::new();
/// pergidau::json::append_string("C:\\", &mut out)?;
/// assert_eq!(out, b"\"C:\\\\\"");
/// # Ok::<(), pergidau::Error>(())
/// ```
#[cfg(feature = "alloc")]
pub fn append_string(text: &str, out: &mut Vec<u8>) -> Result<(), Error> {
    // A few escapes, and the quotes.
    append(out, text.len() + text.len() / 16 + 8, |buffer| write_string(text, buffer))
}
