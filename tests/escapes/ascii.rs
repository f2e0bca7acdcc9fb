//! Text with escapes.
mod escaped;
mod take_escaped;

use stream_errors::input_error::InputError;
use streams::needed::Needed;
use test_support::outcomes::Ending::{self, Fails};
use test_support::outcomes::Kind::{self, Backtrack, Cut, Incomplete};
use test_support::rows::ModalAt;

/// Bytes, and errors that hold them.
type Bytes = &'static [u8];

type Plain = InputError<Bytes>;

type AtBytes = ModalAt<Bytes>;

/// The error kinds of a control that does not match. The control's error type does not distinguish
/// them.
const REFUSALS: [Kind; 3] = [Backtrack, Cut, Incomplete(Needed::Unknown)];

/// The ending of a call that needs an unknown number of units after `taken` units.
fn lacks_behind(taken: usize) -> Ending {
    Fails(Incomplete(Needed::Unknown), taken)
}
