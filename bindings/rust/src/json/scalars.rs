//! Conversions of JSON numbers and strings.
pub use crate::exports::Decimal;

use super::{unknown, Kind, Value};
use crate::exports::{self, JsonText};
use crate::{double, Error, RequiredSize};
#[cfg(feature = "alloc")]
use alloc::{borrow::Cow, string::String, vec};

impl<'i> Value<'i> {
    /// Returns the integer that a number is written as; `-0` gives 0. Returns `None` if the number
    /// has a point or an exponent, like `1.0` and `1e2`, if it does not fit, or if the value is not
    /// a number.
    ///
    /// ```
    /// use pergidau::json;
    ///
    /// let mut list = json::parse("[-12, 1e2]", 1)?.elements();
    /// assert_eq!(list.next().unwrap().as_i64(), Some(-12));
    /// assert_eq!(list.next().unwrap().as_i64(), None);
    /// # Ok::<(), pergidau::Error>(())
    /// ```
    pub fn as_i64(&self) -> Option<i64> {
        let mut out = 0;
        let bytes = self.number()?;
        // SAFETY: the pointers are those of live borrows, and the bytes are only read. The call takes up to
        // 1 KiB of stack (measured); where there is less, the thread's guard page ends the program.
        let code = unsafe { exports::exported_json_integer(bytes.as_ptr(), bytes.len(), &mut out) };
        fits(code).then_some(out)
    }

    /// Like [`as_i64`](Value::as_i64), without a sign: returns `None` for a number with a minus
    /// sign, even `-0`.
    ///
    /// ```
    /// let value = pergidau::json::parse("18446744073709551615", 0)?;
    /// assert_eq!((value.as_u64(), value.as_i64()), (Some(u64::MAX), None));
    /// # Ok::<(), pergidau::Error>(())
    /// ```
    pub fn as_u64(&self) -> Option<u64> {
        let mut out = 0;
        let bytes = self.number()?;
        // SAFETY: the pointers are those of live borrows, and the bytes are only read. The call takes up to
        // 1 KiB of stack (measured); where there is less, the thread's guard page ends the program.
        let code = unsafe { exports::exported_json_natural(bytes.as_ptr(), bytes.len(), &mut out) };
        fits(code).then_some(out)
    }

    /// Returns the exact value of a number, without rounding. Returns `None` if its digits do not
    /// fit 64 bits, if the power of ten does not fit 32, or if the value is not a number.
    ///
    /// ```
    /// let value = pergidau::json::parse("-1.50e3", 0)?.as_decimal().unwrap();
    /// assert_eq!((value.negative, value.digits, value.exponent), (true, 15, 2));
    /// # Ok::<(), pergidau::Error>(())
    /// ```
    pub fn as_decimal(&self) -> Option<Decimal> {
        let mut out = exports::Decimal::default();
        let bytes = self.number()?;
        // SAFETY: the pointers are those of live borrows, and the bytes are only read. The call takes up to
        // 1 KiB of stack (measured); where there is less, the thread's guard page ends the program.
        let code = unsafe { exports::exported_json_decimal(bytes.as_ptr(), bytes.len(), &mut out) };
        fits(code).then_some(out)
    }

    /// Returns the nearest double of a number; of two, the one whose last bit is 0. `-0` gives -0.0,
    /// and a number that is too large gives an infinity. Returns `None` if the value is not a number.
    ///
    /// ```
    /// let mut list = pergidau::json::parse("[2.50, 1e400]", 1)?.elements();
    /// assert_eq!(list.next().unwrap().as_f64(), Some(2.5));
    /// assert_eq!(list.next().unwrap().as_f64(), Some(f64::INFINITY));
    /// # Ok::<(), pergidau::Error>(())
    /// ```
    pub fn as_f64(&self) -> Option<f64> {
        // (the texts of other values are not numbers)
        double(self.text)
    }

    fn number(&self) -> Option<&'i [u8]> {
        (self.kind == Kind::Number).then_some(self.text.as_bytes())
    }

    /// Returns a string without its quotes and with its escapes decoded; `None` if the value is not
    /// a string. A string without escapes is returned as a slice of the JSON text, and nothing is
    /// written; otherwise it is decoded into `buffer`.
    ///
    /// A buffer as long as the string is always large enough. If a shorter one is too small,
    /// [`Error::BufferTooSmall`] holds the required number of bytes.
    ///
    /// ```
    /// let value = pergidau::json::parse("\"r\\u006fle\"", 0)?;
    /// assert_eq!(value.as_str_into(&mut [0; 8])?, Some("role"));
    /// # Ok::<(), pergidau::Error>(())
    /// ```
    pub fn as_str_into<'b>(&self, buffer: &'b mut [u8]) -> Result<Option<&'b str>, Error>
    where
        'i: 'b,
    {
        if self.kind != Kind::String {
            return Ok(None);
        }
        if !self.text.contains('\\') {
            return Ok(self.text.get(1..self.text.len() - 1));
        }
        let (text, _) = unescape(self.text.as_bytes(), buffer)?;
        core::str::from_utf8(text).map(Some).map_err(|_| Error::InvalidUtf8)
    }
}

#[cfg(feature = "alloc")]
impl<'i> Value<'i> {
    /// Returns a string without its quotes and with its escapes decoded; `None` if the value is not
    /// a string. Only a string with escapes is copied.
    ///
    /// ```
    /// let value = pergidau::json::parse("\"r\\u006fle\"", 0)?;
    /// assert_eq!(value.to_str()?.as_deref(), Some("role"));
    /// # Ok::<(), pergidau::Error>(())
    /// ```
    pub fn to_str(&self) -> Result<Option<Cow<'i, str>>, Error> {
        if self.kind != Kind::String {
            return Ok(None);
        }
        if !self.text.contains('\\') {
            return Ok(self.text.get(1..self.text.len() - 1).map(Cow::Borrowed));
        }
        let mut buffer = vec![0; self.text.len()];
        let length = unescape(self.text.as_bytes(), &mut buffer)?.0.len();
        buffer.truncate(length);
        let text = String::from_utf8(buffer).map_err(|_| Error::InvalidUtf8)?;
        Ok(Some(Cow::Owned(text)))
    }
}

/// Returns whether `code` reports that a value was written; the input starts with a number.
fn fits(code: u32) -> bool {
    match code {
        exports::DONE => true,
        exports::NOT_AN_INTEGER | exports::OUT_OF_RANGE => false,
        code => unknown(code),
    }
}

/// Decodes the JSON string (RFC 8259) at the start of `bytes` into `buffer`, without its quotes and
/// with its escapes decoded. Returns the text, and the rest of the input. Bytes of 128 and above
/// are not checked: the text is UTF-8 if the bytes are.
///
/// # Errors
///
/// - [`Error::BufferTooSmall`] if the buffer is too small; it holds the required number of bytes.
/// - [`Error::Invalid`] if `bytes` does not start with a string.
///
/// After an error the contents of `buffer` are unspecified.
///
/// ```
/// use pergidau::json;
///
/// let mut buffer = [0; 8];
/// assert_eq!(json::unescape(b"\"a\\n\": 1", &mut buffer), Ok((&b"a\n"[..], &b": 1"[..])));
/// ```
pub fn unescape<'i, 'b>(
    bytes: &'i [u8],
    buffer: &'b mut [u8],
) -> Result<(&'b [u8], &'i [u8]), Error> {
    let mut out = JsonText::default();
    // SAFETY: the pointers are those of live borrows that do not overlap, and the bytes are only
    // read. The call takes up to 1 KiB of stack (measured); where there is less, the thread's guard
    // page ends the program.
    let code = unsafe {
        exports::exported_json_string(
            bytes.as_ptr(),
            bytes.len(),
            buffer.as_mut_ptr(),
            buffer.len(),
            &mut out,
        )
    };
    match code {
        exports::DONE => Ok((&buffer[..out.text], &bytes[out.length..])),
        code => Err(Error::of(code, None, RequiredSize { entries: 0, bytes: out.text })),
    }
}
