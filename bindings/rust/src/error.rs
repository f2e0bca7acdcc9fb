//! The errors of readers.
use crate::dns::DnsError;
use crate::exports::{self, MAX_DEPTH};
use crate::http::HeadError;
use core::fmt;

/// A position in the input.
#[derive(Clone, Copy, Debug, PartialEq, Eq)]
pub struct Position {
    /// The offset in bytes.
    pub offset: usize,
    /// The number of its line, from 1 on.
    pub line: usize,
    /// The number of its column, from 1 on; a column is a character.
    pub column: usize,
}

impl Position {
    /// Returns the position after the first `offset` bytes. Bytes after them are not read.
    ///
    /// ```
    /// use pergidau::Position;
    ///
    /// let text = "a = 1\nb c\n";
    /// assert_eq!(Position::of(text.as_bytes(), 8).to_string(), "line 2, column 3");
    /// ```
    pub fn of(bytes: &[u8], offset: usize) -> Position {
        let mut found = exports::Position::default();
        // SAFETY: the pointers are those of live borrows, and the bytes are only read. The call uses up to
        // 4 KiB of stack (measured); with less, the thread's guard page stops the program.
        unsafe {
            exports::exported_text_position(bytes.as_ptr(), bytes.len(), offset, &mut found);
        }
        Position { offset, line: found.line, column: found.column }
    }
}

impl fmt::Display for Position {
    fn fmt(&self, f: &mut fmt::Formatter<'_>) -> fmt::Result {
        write!(f, "line {}, column {}", self.line, self.column)
    }
}

/// The error of a reader.
#[derive(Clone, Copy, Debug, PartialEq, Eq)]
#[non_exhaustive]
pub enum Error {
    /// The input is invalid, at this offset in bytes if the reader reports one.
    Invalid(Option<usize>),
    /// A byte of an HTTP head is invalid, or the input ends within the head.
    InvalidHead {
        /// The offset of the byte, or the length of the input.
        offset: usize,
        /// Why it is invalid.
        reason: HeadError,
    },
    /// A part of a DNS message is invalid.
    InvalidDns {
        /// The offset in the message of what is invalid.
        offset: usize,
        /// Why it is invalid.
        reason: DnsError,
    },
    /// The input is incomplete. The function documents whether more bytes can complete it.
    Incomplete,
    /// Memory allocation failed.
    NoMemory,
    /// Input is not valid UTF-8.
    InvalidUtf8,
    /// The buffer is too small; holds the required size.
    BufferTooSmall(RequiredSize),
    /// The requested depth limit is above [`MAX_DEPTH`](crate::MAX_DEPTH).
    MaxDepthTooLarge,
    /// The input is nested deeper than the depth limit, at this offset in bytes.
    TooDeep(usize),
    /// A number of a Redis reply is out of range, at this offset in bytes.
    OutOfRange(usize),
    /// The delimiter, the quote, a carriage return and a line feed of a dialect are not four
    /// different bytes.
    InvalidDialect,
    /// A code that this crate does not know, from another version of the library.
    Unknown(u32),
}

/// The required size of a buffer.
#[derive(Clone, Copy, Debug, PartialEq, Eq)]
pub struct RequiredSize {
    /// The number of entries.
    pub entries: usize,
    /// The number of bytes, if bytes are copied.
    pub bytes: usize,
}

impl Error {
    /// Returns the offset of the error in bytes, if the reader reports one.
    pub fn offset(&self) -> Option<usize> {
        match self {
            Error::Invalid(offset) => *offset,
            Error::InvalidHead { offset, .. } | Error::InvalidDns { offset, .. } => Some(*offset),
            Error::TooDeep(offset) | Error::OutOfRange(offset) => Some(*offset),
            _ => None,
        }
    }

    /// Returns the line and the column of the error in the input of the call, if the reader reports
    /// an offset.
    ///
    /// ```
    /// let error = pergidau::calc::value("1 +\n 2 / 0").unwrap_err();
    /// assert_eq!(error.to_string(), "invalid input at offset 10");
    /// let position = error.position("1 +\n 2 / 0").unwrap();
    /// assert_eq!(position.to_string(), "line 2, column 7");
    /// ```
    pub fn position(&self, input: impl AsRef<[u8]>) -> Option<Position> {
        self.offset().map(|offset| Position::of(input.as_ref(), offset))
    }

    /// Converts a code other than `DONE` to an error.
    pub(crate) fn of(code: u32, offset: Option<usize>, required: RequiredSize) -> Error {
        match code {
            exports::INVALID => Error::Invalid(offset),
            exports::INCOMPLETE => Error::Incomplete,
            exports::NO_MEMORY => Error::NoMemory,
            exports::INVALID_UTF8 => Error::InvalidUtf8,
            exports::BUFFER_TOO_SMALL => Error::BufferTooSmall(required),
            exports::MAX_DEPTH_TOO_LARGE => Error::MaxDepthTooLarge,
            exports::INVALID_DIALECT => Error::InvalidDialect,
            code => Error::Unknown(code),
        }
    }
}

impl fmt::Display for Error {
    fn fmt(&self, f: &mut fmt::Formatter<'_>) -> fmt::Result {
        match self {
            Error::Invalid(Some(offset)) => write!(f, "invalid input at offset {offset}"),
            Error::Invalid(None) => f.write_str("invalid input"),
            Error::InvalidHead { offset, reason } => write!(f, "{reason} at offset {offset}"),
            Error::InvalidDns { offset, reason } => write!(f, "{reason} at offset {offset}"),
            Error::Incomplete => f.write_str("incomplete input: more bytes are needed"),
            Error::NoMemory => f.write_str("memory allocation failed"),
            Error::InvalidUtf8 => f.write_str("input is not valid UTF-8"),
            Error::BufferTooSmall(RequiredSize { entries, bytes: 0 }) => {
                write!(f, "buffer too small: {entries} entries required")
            }
            Error::BufferTooSmall(RequiredSize { entries: 0, bytes }) => {
                write!(f, "buffer too small: {bytes} bytes required")
            }
            Error::BufferTooSmall(RequiredSize { entries, bytes }) => {
                write!(f, "buffer too small: {entries} entries and {bytes} bytes required")
            }
            Error::MaxDepthTooLarge => {
                write!(f, "depth limit too large: at most {MAX_DEPTH} levels are supported")
            }
            Error::TooDeep(offset) => write!(f, "nested too deep at offset {offset}"),
            Error::OutOfRange(offset) => write!(f, "number out of range at offset {offset}"),
            Error::InvalidDialect => f.write_str(
                "impossible dialect: delimiter, quote, carriage return and line feed must differ",
            ),
            Error::Unknown(code) => write!(f, "unknown code {code} from the library"),
        }
    }
}

#[cfg(feature = "std")]
impl std::error::Error for Error {}
