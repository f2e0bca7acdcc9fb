//! Results of parsers.
use stream_errors::parser_error::ParserError;
use streams::needed::Needed;
use streams::stream::{Location, Stream};
use winnow_core::parser::Parser;

/// The kind of an error.
#[derive(Clone, Copy, Debug, PartialEq, Eq)]
pub enum Kind {
    Backtrack,
    Cut,
    Incomplete(Needed),
    Memory,
}

/// The kind of an error.
pub fn kind_of<I: Stream, E: ParserError<I>>(error: &E) -> Kind {
    if error.is_backtrack() {
        return Kind::Backtrack;
    }
    if error.is_memory() {
        return Kind::Memory;
    }
    match error.needed() {
        Some(needed) => Kind::Incomplete(needed),
        None => Kind::Cut,
    }
}

/// An answer, with the kind of its error in place of the error.
pub fn answer_of<I: Stream, O, E: ParserError<I>>(answer: Result<O, E>) -> Result<O, Kind> {
    match answer {
        Ok(output) => Ok(output),
        Err(error) => Err(kind_of::<I, E>(&error)),
    }
}

/// The output of a call or the kind of its error, and the rest.
pub type Outcome<O, I> = (Result<O, Kind>, I);

/// One run of a parser.
pub fn outcome_of<I: Stream, O, E: ParserError<I>, P: Parser<I, O, E>>(
    parser: &mut P,
    mut input: I,
) -> Outcome<O, I> {
    let answer = parser.parse_next(&mut input);
    (answer_of::<I, O, E>(answer), input)
}

/// How a run ended: whether it succeeded or the kind of its error, and the units that it took.
#[derive(Clone, Copy, Debug, PartialEq, Eq)]
pub enum Ending {
    Takes(usize),
    Fails(Kind, usize),
}

/// The ending of a call that backtracks without consuming input.
pub const BACKTRACKS: Ending = Ending::Fails(Kind::Backtrack, 0);

/// The ending of a call that cuts without consuming input.
pub const CUTS: Ending = Ending::Fails(Kind::Cut, 0);

/// The ending of a call that needs an unknown number of units, without consuming input.
pub const LACKS: Ending = Ending::Fails(Kind::Incomplete(Needed::Unknown), 0);

/// Returns the ending of a call that needs `units` more units, without consuming input.
pub fn lacks(units: usize) -> Ending {
    Ending::Fails(Kind::Incomplete(Needed::new(units)), 0)
}

/// Returns the ending of a call that backtracks after `taken` units.
pub fn backtracks_behind(taken: usize) -> Ending {
    Ending::Fails(Kind::Backtrack, taken)
}

/// Returns the ending of a call that needs one more unit after `taken` units.
pub fn lacks_one_behind(taken: usize) -> Ending {
    Ending::Fails(Kind::Incomplete(Needed::new(1)), taken)
}

impl Ending {
    /// Whether more input may change it.
    pub fn is_incomplete(&self) -> bool {
        matches!(self, Ending::Fails(Kind::Incomplete(_), _))
    }
}

/// Returns the ending of a call with this result.
fn ending_with<O: Drop>(answer: Result<O, Kind>, taken: usize) -> Ending {
    match answer {
        Ok(_) => Ending::Takes(taken),
        Err(kind) => Ending::Fails(kind, taken),
    }
}

/// How one run of a parser ends.
pub fn ending_of<I: Stream, O: Drop, E: ParserError<I>, P: Parser<I, O, E>>(
    parser: &mut P,
    input: I,
) -> Ending {
    let before = input.eof_offset();
    let (answer, rest) = outcome_of::<I, O, E, P>(parser, input);
    ending_with(answer, before - rest.eof_offset())
}

/// Calls a parser on a stream that knows its offset, and returns how the call ends, with the units
/// by which the offset moved.
pub fn ending_by_place<I: Location, O: Drop, E: ParserError<I>, P: Parser<I, O, E>>(
    parser: &mut P,
    input: I,
) -> Ending {
    let before = input.current_token_start();
    let (answer, rest) = outcome_of::<I, O, E, P>(parser, input);
    ending_with(answer, rest.current_token_start() - before)
}
