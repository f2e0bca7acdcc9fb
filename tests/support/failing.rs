//! A parser that fails.
ghost use Rattle.parser_definitions.specs.Terms.{AnyOutcome, meets_no_terms, no_terms};
ghost use Rattle.std.specs.Prelude.{⊤};

use crate::outcomes::Kind;
use stream_errors::parser_error::ParserError;
use streams::needed::Needed;
use streams::stream::Stream;
use winnow_core::parser::Parser;

/// A parser that takes a token and fails so.
#[derive(Clone, Copy)]
pub struct Failing(pub Kind);

// The ghost members that the trait requires of each parser.
impl<I: Stream, E: ParserError<I>> Parser<I, u8, E> for Failing {
    ghost State = { ⊤ };

    ghost state = { λ _. tt };

    ghost does = { AnyOutcome };

    ghost terms = { no_terms };

    ghost lawful = { meets_no_terms };

    fn parse_next(&mut self, input: &mut I) -> Result<u8, E> {
        let _token = input.next_token();
        Err(match self.0 {
            Kind::Backtrack => E::from_input(input),
            Kind::Cut => E::assert(input, "cut"),
            Kind::Incomplete(needed) => E::incomplete(input, needed),
            Kind::Memory => E::no_memory(input),
        })
    }
}

/// The kinds of errors that no combinator but those for them changes.
pub const HARD: [Kind; 3] = [Kind::Cut, Kind::Incomplete(Needed::Unknown), Kind::Memory];
