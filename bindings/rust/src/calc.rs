//! Formulas of integers.
//!
//! ```
//! use pergidau::calc;
//!
//! assert_eq!(calc::value("2 + 3 * 4"), Ok(14));
//! assert_eq!(calc::value("1 / 0").unwrap_err().to_string(), "invalid input at offset 5");
//! ```
use crate::{exports, Error, NOTHING};

/// Evaluates a formula of integers.
///
/// The operators, from the highest precedence to the lowest, are: `!` after a number; `+` and `-`
/// before one; `^`; `*`, `/` and `%`; `+` and `-`; and `=`, which gives 1 or 0.
///
/// # Errors
///
/// [`Error::Invalid`] holds the offset of the error: of a syntax error, or of an operation whose
/// value is undefined or does not fit. `%` fails if the quotient does not fit, as in `-2 ^ 63 %
/// -1`.
///
/// # Memory
///
/// A call holds up to 100 bytes of memory for each byte of the text (measured).
///
/// ```
/// use pergidau::calc;
///
/// assert_eq!(calc::value("-2 ^ 2"), Ok(4));
/// assert!(calc::value("9223372036854775808").is_err());
/// assert!(calc::value("-2 ^ 63 % -1").is_err());
/// ```
pub fn value(text: &str) -> Result<i64, Error> {
    let mut out = exports::Number::default();
    // SAFETY: the pointers are those of live borrows, and the bytes are only read. The call takes up to
    // 4 KiB of stack (measured); where there is less, the thread's guard page ends the program.
    let code = unsafe { exports::exported_calc_value(text.as_ptr(), text.len(), &mut out) };
    match code {
        exports::DONE => Ok(out.value),
        code => Err(Error::of(code, Some(out.error_offset), NOTHING)),
    }
}
