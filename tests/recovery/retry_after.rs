//! Parsers that are tried again after input that could not be parsed.
use crate::common::{have_kinds, parses, runs};
use stream_recovery::recoverable::Recoverable;
use streams::needed::Needed;
use streams::partial::Partial;
use streams::stream::StreamIsPartial;
use test_support::failing::{Failing, HARD};
use test_support::outcomes::Kind::{Backtrack, Cut, Incomplete, Memory};
use test_support::outcomes::{answer_of, outcome_of};
use test_support::rows::Modal;
use winnow_ascii::ascii::impls::{Alpha1, Digit1};
use winnow_comb::combinator::cut_err;
use winnow_core::parser::Parser;
use winnow_recovery::parser::RecoveringParser;
use winnow_token::token::take_till;

/// Behind each comma it is tried again, and each error is recorded once.
#[test]
fn retry_after(rt: HostRuntime) {
    let to_comma = || (take_till(0.., ','), ',').void();
    parses(&rt, rt.alloc(), Digit1.retry_after(to_comma()), "ab,12", Some("12"), &[Backtrack]);
    parses(&rt, rt.alloc(), Digit1.retry_after(to_comma()), "12", Some("12"), &[]);
    let two = [Backtrack, Backtrack];
    parses(&rt, rt.alloc(), Digit1.retry_after(to_comma()), "ab,c,12", Some("12"), &two);
    let cut = [Cut, Cut];
    let digits = cut_err(Digit1).retry_after(to_comma());
    parses(&rt, rt.alloc(), digits, "ab,c,12", Some("12"), &cut);
}

/// If the recovery parser consumes no input or fails, the original error is returned, and the input
/// is left where that error occurred.
#[test]
fn retry_after_goes_back(rt: HostRuntime) {
    let to_comma = take_till(0.., ',').void();
    parses(&rt, rt.alloc(), Digit1.retry_after(to_comma), ",1", None, &[Backtrack]);
    let to_comma = take_till(0.., ',').void();
    runs(&rt, rt.alloc(), Digit1.retry_after(to_comma), ",1", Err(Backtrack), ",1", &[]);
    // Two letters are passed before the error arises, and the `;` before the recovery fails.
    let word = (Alpha1, Digit1).retry_after((';', ',').void());
    runs(&rt, rt.alloc(), word, "ab;1", Err(Backtrack), ";1", &[]);
    // The first error is recovered from, the second is not.
    let to_comma = (take_till(0.., ','), ',').void();
    let digits = cut_err(Digit1).retry_after(to_comma);
    runs(&rt, rt.alloc(), digits, "a,b;", Err(Cut), "b;", &[Cut]);
}

/// `Incomplete` and out of memory are returned unchanged, and nothing is recorded.
#[test]
fn retry_after_hands_on(rt: HostRuntime) {
    for kind in HARD {
        if kind != Cut {
            let skips = take_till(1.., ',').void();
            runs(&rt, rt.alloc(), Failing(kind).retry_after(skips), "abc", Err(kind), "bc", &[]);
        }
    }
    let mut input: Recoverable<Partial<&str>, Modal> =
        Recoverable::new(rt.alloc(), Partial::new("12"));
    let skips = take_till(0.., ',').void();
    let answer = Digit1.retry_after(skips).parse_next(&mut input);
    let got = answer_of::<Recoverable<Partial<&str>, Modal>, &str, Modal>(answer);
    assert_eq!(rt; got, Err(Incomplete(Needed::new(1))));
}

/// If the recovery parser is out of memory, that is returned, and the input is left where the
/// original error occurred.
#[test]
fn retry_after_wants_memory(rt: HostRuntime) {
    let skips = Failing(Memory).void();
    runs(&rt, rt.alloc(), Digit1.retry_after(skips), "ab", Err(Memory), "ab", &[]);
}

/// Over a stream that records no errors the parser is run, and nothing else.
#[test]
fn retry_after_without_recovery(rt: HostRuntime) {
    let mut digits = Digit1.retry_after((take_till(0.., ','), ',').void());
    let got = outcome_of::<&str, &str, Modal, _>(&mut digits, "ab,12");
    assert_eq!(rt; got, (Err(Backtrack), "ab,12"));
    let got = outcome_of::<&str, &str, Modal, _>(&mut digits, "12,");
    assert_eq!(rt; got, (Ok("12"), ","));
}

/// A partial stream that is marked complete gives the same results as the plain one.
#[test]
fn retry_after_of_a_complete_stream(rt: HostRuntime) {
    type Cut = Recoverable<Partial<&'static str>, Modal>;
    let mut input: Cut = Recoverable::new(rt.alloc(), Partial::new("ab,12"));
    let _state = input.complete();
    let mut digits = Digit1.retry_after((take_till(0.., ','), ',').void());
    let answer = digits.parse_next(&mut input);
    assert_eq!(rt; answer_of::<Cut, &str, Modal>(answer), Ok("12"));
    let (left, errors) = input.into_parts();
    assert_eq!(rt; left.into_inner(), "");
    have_kinds(&rt, "a complete stream", &errors, &[Backtrack]);
}
