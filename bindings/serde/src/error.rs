//! The errors of deserialization.
use alloc::boxed::Box;
use alloc::string::{String, ToString};
use core::fmt;
use pergidau::json::{self, Diagnostic};
use pergidau::Position;
use serde::de;

/// The error of a text that is not JSON, or whose values do not fit the type.
///
/// ```
/// let error = pergidau_serde::from_str::<Vec<u8>>("[1,\n 256]").unwrap_err();
/// assert_eq!(
///     error.to_string(),
///     "line 2, column 2: invalid value: integer `256`, expected u8"
/// );
/// assert_eq!(error.offset(), Some(5));
/// assert!(error.diagnostic().is_none());
/// ```
#[derive(Clone, PartialEq, Eq)]
pub struct Error(Box<Cause>);

#[derive(Clone, PartialEq, Eq)]
enum Cause {
    /// The text is not JSON.
    Json(Diagnostic),
    /// A value does not fit the type.
    Data { message: String, offset: Option<usize>, position: Option<Position> },
}

impl Error {
    /// Returns the first error of a text that is not JSON; `error` if it has none.
    #[cold]
    pub(crate) fn of_json(text: &[u8], max_depth: usize, error: pergidau::Error) -> Error {
        let other = Diagnostic { error, position: None, expected: None };
        Error(Box::new(Cause::Json(json::diagnose(text, max_depth).err().unwrap_or(other))))
    }

    /// Adds the offset of the value, unless the error has one.
    pub(crate) fn at(mut self, value: usize) -> Error {
        if let Cause::Data { offset, .. } = &mut *self.0 {
            offset.get_or_insert(value);
        }
        self
    }

    /// Adds the line and the column.
    #[cold]
    pub(crate) fn in_text(mut self, text: &str) -> Error {
        if let Cause::Data { offset: Some(offset), position, .. } = &mut *self.0 {
            *position = Some(Position::of(text.as_bytes(), *offset));
        }
        self
    }

    /// Returns the offset of the error in bytes. If a value does not fit the type, it is the offset
    /// of its first byte; of an unknown or repeated field, that of its name.
    ///
    /// It is `None` if memory allocation failed, if the depth limit is too large, or for an error
    /// that a program created itself.
    pub fn offset(&self) -> Option<usize> {
        match &*self.0 {
            Cause::Json(diagnostic) => diagnostic.position.map(|it| it.offset),
            Cause::Data { offset, .. } => *offset,
        }
    }

    /// Returns the offset with its line and column. It is also `None` for an error of
    /// [`Deserializer`](crate::Deserializer) that no function of [`Document`](crate::Document)
    /// returned; [`Position::of`] computes it from the offset then.
    pub fn position(&self) -> Option<Position> {
        match &*self.0 {
            Cause::Json(diagnostic) => diagnostic.position,
            Cause::Data { position, .. } => *position,
        }
    }

    /// Returns the error of a text that is not JSON, or that cannot be parsed for other reasons,
    /// such as its depth. It is `None` if a value does not fit the type.
    ///
    /// ```
    /// use pergidau::json::Expected;
    ///
    /// let error = pergidau_serde::from_str::<Vec<u8>>("[1, 2,]").unwrap_err();
    /// assert_eq!(error.diagnostic().unwrap().expected, Some(Expected::Value));
    /// assert_eq!(error.to_string(), "line 1, column 7: expected a value");
    /// ```
    pub fn diagnostic(&self) -> Option<&Diagnostic> {
        match &*self.0 {
            Cause::Json(diagnostic) => Some(diagnostic),
            Cause::Data { .. } => None,
        }
    }

    /// Returns why a value does not fit the type, without its position. It is `None` if the text is
    /// not JSON.
    ///
    /// ```
    /// let error = pergidau_serde::from_str::<bool>("null").unwrap_err();
    /// assert_eq!(error.message(), Some("invalid type: null, expected a boolean"));
    /// ```
    pub fn message(&self) -> Option<&str> {
        match &*self.0 {
            Cause::Json(_) => None,
            Cause::Data { message, .. } => Some(message),
        }
    }
}

impl de::Error for Error {
    #[cold]
    fn custom<T: fmt::Display>(message: T) -> Error {
        Error(Box::new(Cause::Data { message: message.to_string(), offset: None, position: None }))
    }
}

// (with the feature `std`, of this crate or of another one, it is that of the standard library)
impl de::StdError for Error {}

impl fmt::Display for Error {
    fn fmt(&self, f: &mut fmt::Formatter<'_>) -> fmt::Result {
        match &*self.0 {
            Cause::Json(diagnostic) => diagnostic.fmt(f),
            Cause::Data { message, position: Some(position), .. } => {
                write!(f, "{position}: {message}")
            }
            Cause::Data { message, offset: Some(offset), .. } => {
                write!(f, "offset {offset}: {message}")
            }
            Cause::Data { message, .. } => f.write_str(message),
        }
    }
}

impl fmt::Debug for Error {
    fn fmt(&self, f: &mut fmt::Formatter<'_>) -> fmt::Result {
        f.debug_tuple("Error").field(&self.to_string()).finish()
    }
}
