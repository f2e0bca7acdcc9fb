//! Common helpers: a child that counts its calls, and a child with a plan.
ghost use Rattle.parser_definitions.specs.Terms.{AnyOutcome, meets_no_terms, no_terms};
ghost use Rattle.std.specs.Prelude.{⊤};

use std::cell::Cell;
use stream_errors::input_error::InputError;
use stream_errors::parser_error::ParserError;
use streams::stream::Stream;
use test_support::outcomes::Kind;
use test_support::rows::ModalAt;
use winnow_core::parser::Parser;

/// Bytes, and errors with a mode and plain ones that hold them.
pub(crate) type Bytes = &'static [u8];

pub(crate) type AtBytes = ModalAt<Bytes>;

pub(crate) type Plain = InputError<Bytes>;

/// A parser that counts the runs of another.
#[derive(Drop)]
pub(crate) struct Counted<'c, P> {
    parser: P,
    runs: &'c Cell<usize>,
}

// The ghost members that the trait requires of each parser.
impl<I: Stream, O, E: ParserError<I>, P: Parser<I, O, E>> Parser<I, O, E> for Counted<'_, P> {
    ghost can_parse = { λ s. P.can_parse s.parser };

    ghost State = { P.State };

    ghost state = { λ s. P.state s.parser };

    ghost does = { AnyOutcome };

    ghost terms = { no_terms };

    ghost lawful = { meets_no_terms };

    fn parse_next(&mut self, input: &mut I) -> Result<O, E> {
        self.runs.set(self.runs.get() + 1);
        self.parser.parse_next(input)
    }
}

/// Returns the parser with a count of its calls.
pub(crate) fn counting<P>(parser: P, runs: &Cell<usize>) -> Counted<'_, P> {
    Counted { parser, runs }
}

/// The result of one call of a [`Planned`].
#[derive(Clone, Copy)]
pub(crate) enum Act {
    /// It takes a token, and answers its number in the plan.
    Take,
    /// Consumes no token, and returns its number.
    Stay,
    /// It takes a token, and fails so.
    TakeAndFail(Kind),
    /// Consumes no token, and fails with this kind.
    Fail(Kind),
}

/// A parser whose calls follow a plan in order; after its end they backtrack.
#[derive(Drop)]
pub(crate) struct Planned {
    plan: [Act; 3],
    next: usize,
}

/// A parser of a plan of at most three runs.
pub(crate) fn acting(plan: &[Act]) -> Planned {
    let mut all = [Act::Fail(Kind::Backtrack); 3];
    for (place, act) in plan.iter().enumerate() {
        if place < 3 {
            all[place] = *act;
        }
    }
    Planned { plan: all, next: 0 }
}

/// An error of a kind.
fn error_of<I: Stream, E: ParserError<I>>(kind: Kind, input: &I) -> E {
    match kind {
        Kind::Backtrack => E::from_input(input),
        Kind::Cut => E::assert(input, "cut"),
        Kind::Incomplete(needed) => E::incomplete(input, needed),
        Kind::Memory => E::no_memory(input),
    }
}

impl<I: Stream, E: ParserError<I>> Parser<I, usize, E> for Planned {
    ghost State = { ⊤ };

    ghost state = { λ _. tt };

    ghost does = { AnyOutcome };

    ghost terms = { no_terms };

    ghost lawful = { meets_no_terms };

    fn parse_next(&mut self, input: &mut I) -> Result<usize, E> {
        let number = self.next;
        self.next += 1;
        match self.plan.get(number) {
            Some(Act::Take) => {
                let _token = input.next_token();
                Ok(number)
            }
            Some(Act::Stay) => Ok(number),
            Some(Act::TakeAndFail(kind)) => {
                let _token = input.next_token();
                Err(error_of(*kind, input))
            }
            Some(Act::Fail(kind)) => Err(error_of(*kind, input)),
            None => Err(E::from_input(input)),
        }
    }
}
