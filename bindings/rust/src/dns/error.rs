//! Why a part of a message is invalid.
use crate::{exports, Error, NOTHING};
use core::fmt;

/// Why a part of a message is invalid.
#[derive(Clone, Copy, Debug, PartialEq, Eq)]
#[non_exhaustive]
pub enum DnsError {
    /// The message, or a record's data by their length, ends within the element: a label, a pointer,
    /// the end of a name, fields of a fixed length, a character string, or data.
    Incomplete,
    /// A record's data have bytes after the contents of their type.
    Trailing,
    /// Exactly one of the two highest bits of the byte is set.
    Reserved,
    /// The target of a compression pointer is not before the labels that precede it.
    NotPrior,
    /// The compression pointer is one more than are followed.
    TooManyPointers,
    /// With the labels from the offset on a name has more than 255 bytes.
    TooLong,
    /// A number that this crate does not know, from another version of the library.
    Unknown(u32),
}

impl fmt::Display for DnsError {
    fn fmt(&self, f: &mut fmt::Formatter<'_>) -> fmt::Result {
        f.write_str(match self {
            DnsError::Incomplete => "incomplete element",
            DnsError::Trailing => "unexpected trailing data",
            DnsError::Reserved => "reserved label type",
            DnsError::NotPrior => "compression pointer without a prior target",
            DnsError::TooManyPointers => "too many compression pointers",
            DnsError::TooLong => "name too long",
            DnsError::Unknown(number) => {
                return write!(f, "unknown number {number} from the library");
            }
        })
    }
}

#[cfg(feature = "std")]
impl std::error::Error for DnsError {}

/// Converts a code other than `DONE` to an error.
pub(super) fn error_of(code: u32, fault: exports::DnsFault) -> Error {
    let reason = match fault.error {
        exports::DNS_ERROR_INCOMPLETE => DnsError::Incomplete,
        exports::DNS_ERROR_TRAILING => DnsError::Trailing,
        exports::DNS_ERROR_RESERVED => DnsError::Reserved,
        exports::DNS_ERROR_NOT_PRIOR => DnsError::NotPrior,
        exports::DNS_ERROR_TOO_MANY => DnsError::TooManyPointers,
        exports::DNS_ERROR_TOO_LONG => DnsError::TooLong,
        number => DnsError::Unknown(number),
    };
    match code {
        exports::INVALID => Error::InvalidDns { offset: fault.offset, reason },
        code => Error::of(code, None, NOTHING),
    }
}
