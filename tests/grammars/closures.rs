//! The closures of compositions, which parsers call and grammars name.
use crate::shown::Shown;

/// The digits that are lengths.
pub(crate) const LENGTHS: &'static [u8] = b"0123";

/// The number that a digit says.
pub(crate) fn said(digit: u8) -> u8 {
    digit.wrapping_sub(b'0')
}

/// Whether a `verify` accepts an output.
pub(crate) fn is_accepted(output: &Shown) -> bool {
    output.len() % 2 == 0
}

/// Returns the output of `verify_map` for an output that it accepts.
pub(crate) fn made_if_accepted(output: Shown) -> Option<Shown> {
    if is_accepted(&output) {
        Some(Shown::count(output.len()))
    } else {
        None
    }
}

/// Returns the output of `map`.
pub(crate) fn made(output: Shown) -> Shown {
    Shown::all(b'm', &[output])
}

/// Returns the number of tokens that `flat_map` takes after an output.
pub(crate) fn decided(output: Shown) -> usize {
    output.len() % 3
}

/// Folds an output into a value.
pub(crate) fn folded(value: Shown, output: Shown) -> Shown {
    Shown::all(b'f', &[value, output])
}
