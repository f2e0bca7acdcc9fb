//! The errors of a whole parse.
use std::process::Abort;
use stream_errors::empty::EmptyError;
use stream_errors::fault::{ParseError, ParseFault};
use stream_errors::mode::ErrMode;
use stream_errors::parser_error::ParserError;
use streams::needed::Needed;
use streams::stream::Stream;

#[test]
fn fault(rt: HostRuntime) {
    let whole = b"12a".as_slice();
    let mut input = whole;
    let start = input.checkpoint();
    let _slice = input.next_slice(2);
    let error = ParseError::new(input, start, 5u8);
    assert_eq!(rt; error.offset(), 2);
    assert_eq!(rt; *error.input(), whole);
    assert_eq!(rt; *error.inner(), 5);
    assert_eq!(rt; error.into_inner(), 5);
    let fault: ParseFault<u8, u8> = ParseFault::Incomplete(Needed::new(1));
    let other = ParseFault::Incomplete(Needed::Unknown);
    assert_eq!(rt; fault == other, false, "needs that differ");
}

/// An error after two bytes of three, as the error of the whole.
fn two_of_three<E: ParserError<&'static [u8], Inner = EmptyError>>(
    rt: &impl Abort,
    error: E,
    wanted: Option<Needed>,
) {
    let whole = b"12a".as_slice();
    let mut input = whole;
    let _slice = input.next_slice(2);
    match ParseFault::at(input, whole.checkpoint(), error) {
        ParseFault::Invalid(error) => {
            assert_eq!(rt; (error.offset(), *error.input()), (2, whole));
            assert_eq!(rt; wanted, None);
        }
        ParseFault::Incomplete(needed) => assert_eq!(rt; Some(needed), wanted),
    }
}

#[test]
fn faults_of_all_forms(rt: HostRuntime) {
    let inner: EmptyError = ParserError::<&[u8]>::from_input(&b"a".as_slice());
    two_of_three(&rt, inner, None);
    two_of_three(&rt, ErrMode::Backtrack(inner), None);
    two_of_three(&rt, ErrMode::Cut(inner), None);
    let need: ErrMode<EmptyError> = ErrMode::Incomplete(Needed::new(3));
    two_of_three(&rt, need, Some(Needed::new(3)));
}
