//! An error that needs memory to hold another error.
ghost use Rattle.std.specs.Prelude.{true};
ghost use Rattle.stream_errors.specs.Form.{marked_kind, plain};
ghost use Rattle.stream_errors.specs.Form.{marked_kind-cases};
ghost use Rattle.stream_errors.specs.Given.{kept_or_refused};

use stream_errors::external::FromExternalError;
use stream_errors::has_kind::HasKind;
use stream_errors::parser_error::ParserError;
use streams::needed::Needed;
use streams::stream::Stream;

/// An error for which there is no memory.
#[derive(Clone, Copy, Debug, PartialEq, Eq)]
pub struct TooLarge;

/// A plain error that would hold another error but never can allocate for it: made from a
/// [`TooLarge`] it is out of memory.
#[derive(Clone, Copy, Debug, PartialEq, Eq)]
pub struct Wanting {
    is_memory: bool,
}

// The ghost members that the traits require of each error.
impl HasKind for Wanting {
    ghost kind = { λ e. marked_kind e.is_memory };

    ghost form = { plain };
}

impl<I: Stream> ParserError<I> for Wanting {
    type Inner = Wanting;

    ghost inner_kind = { λ e. marked_kind e.is_memory };

    ghost or_grows = { λ _ _. ⊥ };

    ghost append_grows = { λ _. ⊥ };

    fn from_input(_input: &I) -> Wanting {
        Wanting { is_memory: false }
    }

    fn assert(_input: &I, _message: &'static str) -> Wanting {
        Wanting { is_memory: false }
    }

    fn incomplete(_input: &I, _needed: Needed) -> Wanting {
        Wanting { is_memory: false }
    }

    fn no_memory(_input: &I) -> Wanting {
        Wanting { is_memory: true }
    }

    fn or(self, other: Wanting) -> Wanting {
        if self.is_memory { self } else { other }
    }

    fn append(self, _input: &I, _token_start: &I::Checkpoint) -> Wanting {
        self
    }

    fn is_backtrack(&self) -> bool {
        !self.is_memory
    }

    fn is_incomplete(&self) -> bool {
        false
    }

    fn is_memory(&self) -> bool {
        self.is_memory
    }

    fn needed(&self) -> Option<Needed> {
        None
    }

    fn into_inner(self) -> Result<Wanting, Wanting> {
        Ok(self)
    }

    ghost plain_kinds = { λ _ e. marked_kind-cases e.is_memory };
}

impl<I: Stream> FromExternalError<I, TooLarge> for Wanting {
    ghost external_grows = { true };

    ghost external_gives = { λ _. kept_or_refused };

    ghost external_asks = { λ _ refused. refused };

    fn from_external_error(_input: &I, _error: TooLarge) -> Wanting {
        Wanting { is_memory: true }
    }
}
