//! Whole parses that answer all errors.
use crate::common::parses;
use std::alloc::Global;
use stream_errors::context_error::ContextError;
use stream_errors::empty::EmptyError;
use stream_errors::parser_error::ParserError;
use stream_recovery::recoverable::Recoverable;
use streams::locating::LocatingSlice;
use streams::needed::Needed;
use test_support::failing::Failing;
use test_support::outcomes::Kind::{Backtrack, Cut, Incomplete, Memory};
use winnow_ascii::ascii::impls::Digit1;
use winnow_comb::combinator::cut_err;
use winnow_core::parser::Parser;
use winnow_recovery::parser::{NoMemory, RecoverableParser, RecoveringParser};
use winnow_token::token::take_till;

/// Remaining input is an error, after the recorded ones.
#[test]
fn recoverable_parse(rt: HostRuntime) {
    parses(&rt, rt.alloc(), Digit1, "12ab", Some("12"), &[Backtrack]);
    parses(&rt, rt.alloc(), Digit1, "12", Some("12"), &[]);
    parses(&rt, rt.alloc(), Digit1, "ab", None, &[Backtrack]);
    parses(&rt, rt.alloc(), cut_err(Digit1), "ab", None, &[Cut]);
}

/// Errors are in the order in which they were recorded; the one that ended the parse is last.
#[test]
fn recoverable_parse_orders_errors(rt: HostRuntime) {
    let to_comma = || take_till(0.., ',').void();
    let cuts = || cut_err(Digit1).resume_after(to_comma());
    let pair = (cuts(), ',', Digit1.resume_after(to_comma()));
    parses(&rt, rt.alloc(), pair, "x,y", Some((None, ',', None)), &[Cut, Backtrack]);
    parses(&rt, rt.alloc(), cuts(), "x,", Some(None), &[Cut, Backtrack]);
    let pair = (Digit1.resume_after(to_comma()), ',', cut_err(Digit1));
    parses(&rt, rt.alloc(), pair, "x,y", None, &[Backtrack, Cut]);
}

/// `Incomplete` becomes a backtrack, since the input is complete.
#[test]
fn recoverable_parse_of_a_need(rt: HostRuntime) {
    let asks = Failing(Incomplete(Needed::new(2)));
    parses(&rt, rt.alloc(), asks, "ab", None, &[Backtrack]);
}

/// If a parser is out of memory, only the input is returned.
#[test]
fn recoverable_parse_without_memory(rt: HostRuntime) {
    let answer: Result<(&str, Option<u8>, Vec<EmptyError>), NoMemory<&str>> =
        RecoverableParser::<&str, u8, EmptyError, EmptyError, Global>::recoverable_parse(
            &mut Failing(Memory),
            rt.alloc(),
            "ab",
        );
    assert!(rt; matches!(answer, Err(NoMemory("ab"))));
}

/// Other errors, and a stream that knows its offset.
#[test]
fn recoverable_parse_elsewhere(rt: HostRuntime) {
    type Located = LocatingSlice<&'static [u8]>;
    type Bytes = Recoverable<Located, ContextError<&'static str>>;
    let skips = take_till(0.., b',').void();
    let mut pair = (Digit1.context(rt.alloc(), "first").resume_after(skips), b',', Digit1);
    let start: Located = LocatingSlice::new(b"x,2".as_slice());
    match pair.recoverable_parse(rt.alloc(), start) {
        Ok((back, output, errors)) => {
            assert_eq!(rt; back, LocatingSlice::new(b"x,2".as_slice()));
            assert_eq!(rt; output, Some((None, b',', b"2".as_slice())));
            assert_eq!(rt; errors.len(), 1);
            for error in errors.iter() {
                let error: &ContextError<&'static str> = error;
                assert_eq!(rt; error.context(), ["first"].as_slice());
                assert!(rt; ParserError::<Bytes>::is_backtrack(error));
            }
        }
        Err(NoMemory(_)) => assert!(rt; false, "memory is there"),
    }
}
