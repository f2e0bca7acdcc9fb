//! Why a byte of a head is invalid.
use crate::{exports, Error, RequiredSize};
use core::fmt;

/// Why a byte of a head is invalid: the part of the head that it is in, as RFC 9112 names it.
#[derive(Clone, Copy, Debug, PartialEq, Eq)]
#[non_exhaustive]
pub enum HeadError {
    /// Not a method, followed by a space.
    Method,
    /// Not a request target, followed by a space.
    Target,
    /// Not a version: `HTTP/`, a digit, a point and a digit.
    Version,
    /// Not a status code of three digits, followed by a space or the line ending.
    StatusCode,
    /// Not the first byte of a field name, or of the empty line.
    FieldName,
    /// Neither part of the field name nor the colon directly after it.
    Colon,
    /// Not valid in a field value or reason phrase.
    Value,
    /// Not CRLF.
    LineEnding,
    /// The bytes end within a head.
    Incomplete,
    /// A number that this crate does not know, from another version of the library.
    Unknown(u32),
}

impl fmt::Display for HeadError {
    fn fmt(&self, f: &mut fmt::Formatter<'_>) -> fmt::Result {
        f.write_str(match self {
            HeadError::Method => "expected a method and a space",
            HeadError::Target => "expected a request target and a space",
            HeadError::Version => "expected an HTTP version",
            HeadError::StatusCode => "expected a status code of three digits",
            HeadError::FieldName => "expected a field name or an empty line",
            HeadError::Colon => "expected a colon after the field name",
            HeadError::Value => "invalid byte in a field value or reason phrase",
            HeadError::LineEnding => "expected CRLF",
            HeadError::Incomplete => "incomplete head",
            HeadError::Unknown(number) => {
                return write!(f, "unknown number {number} from the library")
            }
        })
    }
}

#[cfg(feature = "std")]
impl std::error::Error for HeadError {}

impl HeadError {
    /// Converts a number of the library to a reason.
    fn of(number: u32) -> HeadError {
        match number {
            exports::HTTP_HEAD_ERROR_METHOD => HeadError::Method,
            exports::HTTP_HEAD_ERROR_TARGET => HeadError::Target,
            exports::HTTP_HEAD_ERROR_VERSION => HeadError::Version,
            exports::HTTP_HEAD_ERROR_STATUS_CODE => HeadError::StatusCode,
            exports::HTTP_HEAD_ERROR_FIELD_NAME => HeadError::FieldName,
            exports::HTTP_HEAD_ERROR_COLON => HeadError::Colon,
            exports::HTTP_HEAD_ERROR_VALUE => HeadError::Value,
            exports::HTTP_HEAD_ERROR_LINE_ENDING => HeadError::LineEnding,
            exports::HTTP_HEAD_ERROR_INCOMPLETE => HeadError::Incomplete,
            number => HeadError::Unknown(number),
        }
    }
}

/// Converts a code other than `DONE` of a head to an error, with the number of fields.
pub(super) fn error_of(code: u32, offset: usize, number: u32, fields: usize) -> Error {
    match code {
        exports::INVALID => Error::InvalidHead { offset, reason: HeadError::of(number) },
        code => Error::of(code, Some(offset), RequiredSize { entries: fields, bytes: 0 }),
    }
}
