//! Names.
use crate::{dns, exports, Error};
use core::fmt;

/// A name, without compression. It holds its bytes.
///
/// Names are equal if their bytes are; DNS ignores the case of ASCII letters, as
/// [`eq_ignore_ascii_case`](Name::eq_ignore_ascii_case) does.
#[derive(Clone, Copy, PartialEq, Eq, Hash)]
pub struct Name {
    /// The length. The bytes after it are zeros.
    length: usize,
    bytes: [u8; exports::DNS_MAX_NAME],
}

impl Name {
    /// Decompresses the name at an offset of a message, and returns it with the offset after it. At
    /// most 127 pointers are followed in sequence.
    ///
    /// # Errors
    ///
    /// [`InvalidDns`](Error::InvalidDns): there is no name of at most 255 bytes. Or memory allocation
    /// failed.
    ///
    /// ```
    /// use pergidau::dns::Name;
    ///
    /// let (name, end) = Name::at(b"\x03com\0\x07example\xc0\0", 5)?;
    /// assert_eq!((name.to_string().as_str(), end), ("example.com.", 15));
    /// assert_eq!(name.labels().collect::<Vec<_>>(), [&b"example"[..], b"com"]);
    /// let error = Name::at(b"\xc0\0", 0).unwrap_err();
    /// assert_eq!(error.to_string(), "compression pointer without a prior target at offset 0");
    /// # Ok::<(), pergidau::Error>(())
    /// ```
    pub fn at(message: &[u8], offset: usize) -> Result<(Name, usize), Error> {
        let mut bytes = [0; exports::DNS_MAX_NAME];
        let mut out = exports::DnsName::default();
        // SAFETY: the pointers are those of live borrows, and the message is only read. The call uses up to
        // 48 KiB of stack (measured); with less, the thread's guard page stops the program.
        let code = unsafe {
            exports::exported_dns_name_at(
                message.as_ptr(),
                message.len(),
                offset,
                bytes.as_mut_ptr(),
                bytes.len(),
                &mut out,
            )
        };
        match code {
            exports::DONE => Ok((Name { length: out.length, bytes }, out.end)),
            code => Err(dns::error::error_of(code, out.fault)),
        }
    }

    /// Returns its bytes: each label after its length, and a zero for the root.
    pub fn as_bytes(&self) -> &[u8] {
        &self.bytes[..self.length]
    }

    /// Returns its labels, without the root.
    pub fn labels(&self) -> Labels<'_> {
        Labels { left: self.as_bytes() }
    }

    /// Returns whether the names are equal, ignoring the case of ASCII letters.
    ///
    /// ```
    /// use pergidau::dns::Name;
    ///
    /// let message = b"\x03com\0\x03COM\0";
    /// let ((lower, _), (upper, _)) = (Name::at(message, 0)?, Name::at(message, 5)?);
    /// assert!(lower.eq_ignore_ascii_case(&upper) && lower != upper);
    /// # Ok::<(), pergidau::Error>(())
    /// ```
    pub fn eq_ignore_ascii_case(&self, other: &Name) -> bool {
        // (no length of a label is a letter)
        self.as_bytes().eq_ignore_ascii_case(other.as_bytes())
    }
}

/// Writes the name as in master files (RFC 1035, section 5.1): a dot after each label, and a dot for
/// the root. A byte with a special meaning is preceded by a backslash. A byte that is not a visible
/// ASCII character is a backslash and its number in three digits.
impl fmt::Display for Name {
    fn fmt(&self, f: &mut fmt::Formatter<'_>) -> fmt::Result {
        if self.length <= 1 {
            return f.write_str(".");
        }
        for label in self.labels() {
            for byte in label {
                match byte {
                    b'"' | b'$' | b'(' | b')' | b'.' | b';' | b'@' | b'\\' => {
                        write!(f, "\\{}", char::from(*byte))?;
                    }
                    b'!'..=b'~' => write!(f, "{}", char::from(*byte))?,
                    _ => write!(f, "\\{byte:03}")?,
                }
            }
            f.write_str(".")?;
        }
        Ok(())
    }
}

impl fmt::Debug for Name {
    fn fmt(&self, f: &mut fmt::Formatter<'_>) -> fmt::Result {
        write!(f, "Name({self})")
    }
}

/// The labels of a name.
#[derive(Clone, Debug)]
pub struct Labels<'n> {
    left: &'n [u8],
}

impl<'n> Iterator for Labels<'n> {
    type Item = &'n [u8];

    fn next(&mut self) -> Option<&'n [u8]> {
        let (length, behind) = self.left.split_first().filter(|(length, _)| **length > 0)?;
        let (label, left) = behind.split_at(usize::from(*length));
        self.left = left;
        Some(label)
    }
}
