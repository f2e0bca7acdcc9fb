//! Common helpers.
use stream_errors::input_error::InputError;
use stream_errors::parser_error::ParserError;
use streams::stream::StreamIsPartial;
use test_support::rows::ModalAt;
use winnow_token::token::impls::TakeWhile;
use winnow_token::token::take_while;

/// Bytes, and errors with a mode and plain ones that hold them.
pub(crate) type Bytes = &'static [u8];

pub(crate) type AtBytes = ModalAt<Bytes>;

pub(crate) type Plain = InputError<Bytes>;

/// The parser of one such letter.
pub(crate) fn letter<I: StreamIsPartial<Token = char>, E: ParserError<I>>(
    letter: char,
) -> TakeWhile<char, I, E> {
    take_while(1..=1, letter)
}
