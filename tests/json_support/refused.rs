//! Reads of a value, with each allocation failing in turn.
use std::alloc::Global;
use std::process::Abort;
use test_support::outcomes::{Kind, kind_of};
use test_support::refusing::{Refusing, refused_in_turn};
use winnow::error::{ParseFault, ParserError};
use winnow::stream::Stream;

/// The text to read, with a value nested three deep that allocates repeatedly.
pub const TEXT: &str = "[1, {\"a\": [\"b\"], \"c\": true}, {}]";

/// The result of a read, without the value or with the kind of the error, and how much of the text
/// remains.
pub type Read = (Result<(), Kind>, usize);

/// A read by a parser, which left so much.
pub fn read<I: Stream, O: Drop, E: ParserError<I>>(answer: Result<O, E>, left: usize) -> Read {
    match answer {
        Ok(_) => (Ok(()), left),
        Err(error) => (Err(kind_of::<I, E>(&error)), left),
    }
}

/// A read of a whole text.
pub fn read_whole<I, O, E>(answer: Result<O, ParseFault<I, E>>) -> Read
where
    I: Stream,
    O: Drop,
    E: ParserError<I>,
{
    match answer {
        Ok(_) => (Ok(()), 0),
        Err(ParseFault::Invalid(error)) => (Err(kind_of::<I, E>(error.inner())), 0),
        Err(ParseFault::Incomplete(needed)) => (Err(Kind::Incomplete(needed)), 0),
    }
}

/// Checks that a read of the text is out of memory if an allocation fails, and otherwise reads all
/// of it.
pub fn each_refused(
    rt: &impl Abort,
    name: &str,
    alloc: Global,
    run: impl FnMut(&Refusing<Global>) -> Read,
) {
    refused_in_turn(rt, name, alloc, run, (Ok(()), 0));
}
