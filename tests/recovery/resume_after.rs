//! Parsers after whose errors parsing resumes.
use crate::common::{parses, runs};
use test_support::failing::{Failing, HARD};
use test_support::outcomes::Kind::{Backtrack, Cut, Memory};
use test_support::outcomes::outcome_of;
use test_support::rows::Modal;
use winnow_ascii::ascii::impls::{Alpha1, Digit1};
use winnow_comb::combinator::{alt, cut_err};
use winnow_core::parser::Parser;
use winnow_recovery::parser::RecoveringParser;
use winnow_token::token::impls::Rest;
use winnow_token::token::take_till;

/// There is no output, and the error is recorded once.
#[test]
fn resume_after(rt: HostRuntime) {
    let to_comma = || take_till(0.., ',').void();
    let pair = (Digit1.resume_after(to_comma()), ',', Digit1);
    parses(&rt, rt.alloc(), pair, "x,2", Some((None, ',', "2")), &[Backtrack]);
    let pair = (Digit1.resume_after(to_comma()), ',', Digit1);
    parses(&rt, rt.alloc(), pair, "1,2", Some((Some("1"), ',', "2")), &[]);
    // The parser that recovers need not consume.
    let pair = (cut_err(Digit1).resume_after(to_comma()), ',', Digit1);
    parses(&rt, rt.alloc(), pair, ",2", Some((None, ',', "2")), &[Cut]);
}

/// A choice takes back the place, and not what was recorded.
#[test]
fn resume_after_in_a_choice(rt: HostRuntime) {
    let to_comma = take_till(0.., ',').void();
    let first = (Digit1.resume_after(to_comma), ';').void();
    parses(&rt, rt.alloc(), alt((first, Rest.void())), "x,", Some(()), &[Backtrack]);
}

/// If the recovery parser fails, the original error is returned, and the input is left where that
/// error occurred.
#[test]
fn resume_after_goes_back(rt: HostRuntime) {
    let word = (Alpha1, cut_err(Digit1)).resume_after((';', ',').void());
    runs(&rt, rt.alloc(), word, "ab;1", Err(Cut), ";1", &[]);
    let wants = Failing(Memory).void();
    runs(&rt, rt.alloc(), Digit1.resume_after(wants), "ab", Err(Memory), "ab", &[]);
}

/// `Incomplete` and out of memory are returned unchanged, and nothing is recorded.
#[test]
fn resume_after_hands_on(rt: HostRuntime) {
    for kind in HARD {
        if kind != Cut {
            let skips = take_till(0.., ',').void();
            runs(&rt, rt.alloc(), Failing(kind).resume_after(skips), "abc", Err(kind), "bc", &[]);
        }
    }
}

/// Over a stream that records no errors the parser is run, and nothing else.
#[test]
fn resume_after_without_recovery(rt: HostRuntime) {
    let mut digits = Digit1.resume_after(take_till(0.., ',').void());
    let got = outcome_of::<&str, Option<&str>, Modal, _>(&mut digits, "ab,12");
    assert_eq!(rt; got, (Err(Backtrack), "ab,12"));
    let got = outcome_of::<&str, Option<&str>, Modal, _>(&mut digits, "12,");
    assert_eq!(rt; got, (Ok(Some("12")), ","));
}
