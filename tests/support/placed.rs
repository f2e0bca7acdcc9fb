//! An error that keeps the positions that it is given.
ghost use Rattle.std.specs.Prelude.{false};
ghost use Rattle.stream_errors.specs.Form.{marked_kind, marked_kind-cases, plain};
ghost use Rattle.stream_errors.specs.Given.{always_kept};

use std::alloc::Allocator;
use stream_errors::context::AddContext;
use stream_errors::has_kind::HasKind;
use stream_errors::parser_error::ParserError;
use stream_errors::recoverable::FromRecoverableError;
use streams::needed::Needed;
use streams::stream::Stream;

/// A plain error of a parser over text. It keeps the positions that it was given last, each as the
/// input that remained there. No error of the library keeps them.
#[derive(Clone, Copy, Debug, PartialEq, Eq)]
pub struct Placed {
    /// Where the parser began, and where it failed, as recovery gave them.
    pub recovered: Option<(&'static str, &'static str)>,
    /// Where the parser began whose context was added.
    pub begun: Option<&'static str>,
    is_memory: bool,
}

impl Placed {
    fn new(is_memory: bool) -> Placed {
        Placed {
            recovered: None,
            begun: None,
            is_memory,
        }
    }
}

impl HasKind for Placed {
    ghost kind = { λ e. marked_kind e.is_memory };

    ghost form = { plain };
}

// The ghost members that the trait requires of each error.
impl<I: Stream> ParserError<I> for Placed {
    type Inner = Placed;

    ghost inner_kind = { λ e. marked_kind e.is_memory };

    ghost or_grows = { λ _ _. ⊥ };

    ghost append_grows = { λ _. ⊥ };

    fn from_input(_input: &I) -> Placed {
        Placed::new(false)
    }

    fn assert(_input: &I, _message: &'static str) -> Placed {
        Placed::new(false)
    }

    fn incomplete(_input: &I, _needed: Needed) -> Placed {
        Placed::new(false)
    }

    fn no_memory(_input: &I) -> Placed {
        Placed::new(true)
    }

    fn or(self, other: Placed) -> Placed {
        if self.is_memory { self } else { other }
    }

    fn append(self, _input: &I, _token_start: &I::Checkpoint) -> Placed {
        self
    }

    fn is_backtrack(&self) -> bool {
        !self.is_memory
    }

    fn is_incomplete(&self) -> bool {
        false
    }

    fn is_memory(&self) -> bool {
        self.is_memory
    }

    fn needed(&self) -> Option<Needed> {
        None
    }

    fn into_inner(self) -> Result<Placed, Placed> {
        Ok(self)
    }

    ghost plain_kinds = { λ _ e. marked_kind-cases e.is_memory };
}

impl<I: Stream<Checkpoint = &'static str>> FromRecoverableError<I, Placed> for Placed {
    ghost recoverable_grows = { false };

    fn from_recoverable_error(
        token_start: &&'static str,
        err_start: &&'static str,
        _input: &I,
        error: Placed,
    ) -> Placed {
        Placed {
            recovered: Some((*token_start, *err_start)),
            ..error
        }
    }
}

impl<I: Stream<Checkpoint = &'static str>, C: Drop, A: Allocator> AddContext<I, C, A> for Placed {
    ghost context_grows = { false };

    ghost context_gives = { λ _. always_kept };

    ghost context_asks = { λ _ refused. refused };

    fn add_context(
        self,
        _alloc: A,
        _input: &I,
        token_start: &&'static str,
        _context: C,
    ) -> Placed {
        Placed {
            begun: Some(*token_start),
            ..self
        }
    }
}
