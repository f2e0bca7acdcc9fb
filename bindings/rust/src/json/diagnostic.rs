//! The first error of a text that is not JSON.
use crate::exports::{self, JsonDiagnostic};
use crate::{Error, Position, NOTHING};
use core::fmt;

/// The first error of a text that is not JSON, and where it is.
///
/// ```
/// let error = pergidau::json::diagnose(b"{\"a\" 1}", 1).unwrap_err();
/// assert_eq!(error.to_string(), "line 1, column 6: expected a colon");
/// ```
#[derive(Clone, Copy, Debug, PartialEq, Eq)]
pub struct Diagnostic {
    /// The error. [`Error::Incomplete`] means that the text ends too early.
    pub error: Error,
    /// Its position; `None` if memory allocation failed, or if the depth limit is too large.
    pub position: Option<Position>,
    /// The input that is expected there; `None` if the text is nested too deep or not UTF-8.
    pub expected: Option<Expected>,
}

/// The input that is expected at a position of a JSON text. Whitespace is accepted too, except in a
/// string, a number or a word.
#[derive(Clone, Copy, Debug, PartialEq, Eq)]
#[non_exhaustive]
pub enum Expected {
    /// A value.
    Value,
    /// A value, or the bracket that closes the array.
    ValueOrBracket,
    /// The name of a member: a string.
    Name,
    /// The name of a member, or the brace that closes the object.
    NameOrBrace,
    /// The colon after the name of a member.
    Colon,
    /// A comma, or the bracket that closes the array. After a number, the number may also continue.
    CommaOrBracket,
    /// A comma, or the brace that closes the object. After a number, the number may also continue.
    CommaOrBrace,
    /// The end of the text. After a number, the number may also continue.
    End,
    /// A character of a string that is not a control character, or the quote that closes it.
    Character,
    /// The part of an escape after the backslash.
    Escape,
    /// A hexadecimal digit.
    HexDigit,
    /// A hexadecimal digit that does not make the second half of a surrogate pair.
    FirstHalf,
    /// The escape of the second half of a surrogate pair.
    SecondHalf,
    /// A byte that continues a character in UTF-8.
    Utf8,
    /// A digit.
    Digit,
    /// A digit, or the sign of an exponent.
    DigitOrSign,
    /// This letter of `null`, `true` or `false`.
    Letter(char),
}

impl Expected {
    /// Converts the numbers that were written. There is no expected input if the text is nested too
    /// deep.
    fn of(out: &JsonDiagnostic) -> Option<Expected> {
        Some(match out.error {
            exports::JSON_ERROR_VALUE => Expected::Value,
            exports::JSON_ERROR_VALUE_OR_BRACKET => Expected::ValueOrBracket,
            exports::JSON_ERROR_NAME => Expected::Name,
            exports::JSON_ERROR_NAME_OR_BRACE => Expected::NameOrBrace,
            exports::JSON_ERROR_COLON => Expected::Colon,
            exports::JSON_ERROR_COMMA_OR_BRACKET => Expected::CommaOrBracket,
            exports::JSON_ERROR_COMMA_OR_BRACE => Expected::CommaOrBrace,
            exports::JSON_ERROR_END => Expected::End,
            exports::JSON_ERROR_CHARACTER => Expected::Character,
            exports::JSON_ERROR_ESCAPE => Expected::Escape,
            exports::JSON_ERROR_HEX_DIGIT => Expected::HexDigit,
            exports::JSON_ERROR_FIRST_HALF => Expected::FirstHalf,
            exports::JSON_ERROR_SECOND_HALF => Expected::SecondHalf,
            exports::JSON_ERROR_UTF8 => Expected::Utf8,
            exports::JSON_ERROR_DIGIT => Expected::Digit,
            exports::JSON_ERROR_DIGIT_OR_SIGN => Expected::DigitOrSign,
            exports::JSON_ERROR_LETTER => Expected::Letter(char::from(out.letter)),
            _ => return None,
        })
    }
}

impl fmt::Display for Expected {
    fn fmt(&self, f: &mut fmt::Formatter<'_>) -> fmt::Result {
        f.write_str(match self {
            Expected::Value => "a value",
            Expected::ValueOrBracket => "a value or `]`",
            Expected::Name => "a string",
            Expected::NameOrBrace => "a string or `}`",
            Expected::Colon => "a colon",
            Expected::CommaOrBracket => "a comma or `]`",
            Expected::CommaOrBrace => "a comma or `}`",
            Expected::End => "the end of the text",
            Expected::Character => "a character of a string or its closing quote",
            Expected::Escape => "an escape",
            Expected::HexDigit => "a hexadecimal digit",
            Expected::FirstHalf => "the first half of a surrogate pair",
            Expected::SecondHalf => "the second half of a surrogate pair",
            Expected::Utf8 => "UTF-8",
            Expected::Digit => "a digit",
            Expected::DigitOrSign => "a digit or a sign",
            Expected::Letter(letter) => return write!(f, "the letter `{letter}`"),
        })
    }
}

impl fmt::Display for Diagnostic {
    fn fmt(&self, f: &mut fmt::Formatter<'_>) -> fmt::Result {
        let Some(position) = self.position else {
            return self.error.fmt(f);
        };
        write!(f, "{position}: ")?;
        match (self.error, self.expected) {
            (Error::TooDeep(_), _) => f.write_str("nested too deep"),
            (Error::Incomplete, Some(expected)) => {
                write!(f, "unexpected end of input, expected {expected}")
            }
            (_, Some(expected)) => write!(f, "expected {expected}"),
            (error, None) => error.fmt(f),
        }
    }
}

#[cfg(feature = "std")]
impl std::error::Error for Diagnostic {}

/// Checks a text as [`check`](super::check) does, and returns the first error with its position and
/// the input that is expected there. Bytes that are not UTF-8 are an error, unless another has a
/// smaller offset.
///
/// ```
/// use pergidau::{json, Error};
///
/// let error = json::diagnose(b"[1,\n [2 3]]", 2).unwrap_err();
/// assert_eq!(error.error, Error::Invalid(Some(8)));
/// assert_eq!(error.to_string(), "line 2, column 5: expected a comma or `]`");
/// let error = json::diagnose(b"[1,", 2).unwrap_err();
/// assert_eq!(error.error, Error::Incomplete);
/// ```
pub fn diagnose(text: &[u8], max_depth: usize) -> Result<(), Diagnostic> {
    let mut out = JsonDiagnostic::default();
    // SAFETY: the pointers are those of live borrows, and the bytes are only read. The call takes up to
    // 57 KiB of stack at `MAX_DEPTH` (measured); where there is less, the thread's guard page ends
    // the program.
    let code =
        unsafe { exports::exported_json_diagnose(text.as_ptr(), text.len(), max_depth, &mut out) };
    let error = match code {
        exports::DONE => return Ok(()),
        exports::TOO_DEEP => Error::TooDeep(out.offset),
        code => Error::of(code, Some(out.offset), NOTHING),
    };
    let is_utf8_error = code == exports::INVALID_UTF8;
    Err(Diagnostic {
        error,
        position: (out.line > 0).then_some(Position {
            offset: out.offset,
            line: out.line,
            column: out.column,
        }),
        expected: if is_utf8_error { None } else { Expected::of(&out) },
    })
}
