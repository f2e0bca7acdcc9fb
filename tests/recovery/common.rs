//! Common helpers for tests of recovery: whole parses and single calls, and their results.
use std::alloc::{Allocator, Global};
use std::fmt::Debug;
use std::process::Abort;
use stream_recovery::recoverable::Recoverable;
use test_support::outcomes::{Kind, answer_of, kind_of};
use test_support::rows::Modal;
use winnow_core::parser::Parser;
use winnow_recovery::parser::{NoMemory, RecoverableParser};

/// Text over which errors are recorded.
pub type Text<A = Global> = Recoverable<&'static str, Modal, A>;

/// Errors are of these kinds, in this order.
pub fn have_kinds<A: Allocator>(
    rt: &impl Abort,
    name: &str,
    errors: &Vec<Modal, A>,
    kinds: &[Kind],
) {
    assert_eq!(rt; errors.len(), kinds.len(), "{name}, how many errors");
    for (error, kind) in errors.iter().zip(kinds.iter()) {
        assert_eq!(rt; kind_of::<&str, Modal>(error), *kind, "{name}, an error");
    }
}

/// A whole parse of a text gives this output and errors of these kinds, and the text comes back.
pub fn parses<O, P>(
    rt: &impl Abort,
    alloc: Global,
    mut parser: P,
    text: &'static str,
    output: Option<O>,
    kinds: &[Kind],
)
where
    O: PartialEq + Debug + Drop,
    P: Parser<Text, O, Modal> + Drop,
{
    match parser.recoverable_parse(alloc, text) {
        Ok((back, got, errors)) => {
            assert_eq!(rt; back, text, "{text:?} comes back");
            assert_eq!(rt; got, output, "the output of {text:?}");
            have_kinds(rt, text, &errors, kinds);
        }
        Err(NoMemory(back)) => assert!(rt; false, "{back:?} finds no memory"),
    }
}

/// Checks the result of one call, the rest, and the kinds of the recorded errors.
pub fn runs<O, P>(
    rt: &impl Abort,
    alloc: Global,
    mut parser: P,
    text: &'static str,
    answer: Result<O, Kind>,
    rest: &'static str,
    kinds: &[Kind],
)
where
    O: PartialEq + Debug + Drop,
    P: Parser<Text, O, Modal> + Drop,
{
    let mut input: Text = Recoverable::new(alloc, text);
    let got = parser.parse_next(&mut input);
    assert_eq!(rt; answer_of::<Text, O, Modal>(got), answer, "a run on {text:?}");
    let (left, errors) = input.into_parts();
    assert_eq!(rt; left, rest, "what a run on {text:?} leaves");
    have_kinds(rt, text, &errors, kinds);
}
