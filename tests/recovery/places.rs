//! The positions that an error is given by recovery: where its parser began, and where it failed.
//! Both are written as the input that remained there, and worked out by hand.
use std::alloc::Global;
use std::fmt::Debug;
use std::process::Abort;
use stream_errors::mode::ErrMode;
use stream_errors::parser_error::ParserError;
use stream_errors::recover::Recover;
use stream_recovery::recoverable::Recoverable;
use streams::needed::Needed;
use streams::stream::Stream;
use test_support::failing::Failing;
use test_support::outcomes::Kind::Incomplete;
use test_support::placed::Placed;
use winnow_ascii::ascii::impls::{Alpha1, Digit1};
use winnow_comb::combinator::cut_err;
use winnow_core::parser::Parser;
use winnow_recovery::parser::{NoMemory, RecoverableParser, RecoveringParser};
use winnow_token::token::take_till;

/// Errors with a mode that keep their positions.
type Failure = ErrMode<Placed>;

type Text = Recoverable<&'static str, Failure>;

/// Where a parser began, and where it failed.
type Places = (&'static str, &'static str);

/// The positions of an error.
fn places_of(error: &Failure) -> Option<Places> {
    match error {
        ErrMode::Backtrack(inner) | ErrMode::Cut(inner) => inner.recovered,
        ErrMode::Incomplete(_) => None,
    }
}

/// Checks the positions of errors, in order.
fn have_places(rt: &impl Abort, text: &str, errors: &Vec<Failure>, wanted: &[Places]) {
    assert_eq!(rt; errors.len(), wanted.len(), "{text:?}, how many errors");
    for (error, places) in errors.iter().zip(wanted.iter()) {
        assert_eq!(rt; places_of(error), Some(*places), "{text:?}, an error");
    }
}

/// A whole parse of a text gives this output, and errors with these positions.
fn parses<O, P>(
    rt: &impl Abort,
    alloc: Global,
    mut parser: P,
    text: &'static str,
    output: Option<O>,
    wanted: &[Places],
)
where
    O: PartialEq + Debug + Drop,
    P: Parser<Text, O, Failure> + Drop,
{
    match parser.recoverable_parse(alloc, text) {
        Ok((back, got, errors)) => {
            assert_eq!(rt; (back, got), (text, output), "{text:?}");
            have_places(rt, text, &errors, wanted);
        }
        Err(NoMemory(_)) => assert!(rt; false, "{text:?} finds no memory"),
    }
}

/// One call fails with an error with these positions, after recording errors with those.
fn fails<O, P>(
    rt: &impl Abort,
    alloc: Global,
    mut parser: P,
    text: &'static str,
    places: Places,
    recorded: &[Places],
)
where
    O: Drop,
    P: Parser<Text, O, Failure> + Drop,
{
    let mut input: Text = Recoverable::new(alloc, text);
    match parser.parse_next(&mut input) {
        Ok(_) => assert!(rt; false, "{text:?} is no error"),
        Err(error) => assert_eq!(rt; places_of(&error), Some(places), "{text:?}, the error"),
    }
    let (rest, errors) = input.into_parts();
    assert_eq!(rt; rest, places.1, "what a run on {text:?} leaves");
    have_places(rt, text, &errors, recorded);
}

/// The error for remaining input begins and arises where that input does.
#[test]
fn recoverable_parse_of_a_rest(rt: HostRuntime) {
    parses(&rt, rt.alloc(), Digit1, "12ab", Some("12"), &[("ab", "ab")]);
    parses(&rt, rt.alloc(), (Alpha1, Digit1), "ab1;", Some(("ab", "1")), &[(";", ";")]);
    parses(&rt, rt.alloc(), (Alpha1, Digit1), "ab1", Some(("ab", "1")), &[]);
}

/// The error of a parser begins at the start of the input, and arises where the parser stopped.
#[test]
fn recoverable_parse_of_an_error(rt: HostRuntime) {
    parses(&rt, rt.alloc(), Digit1, "ab", None, &[("ab", "ab")]);
    parses(&rt, rt.alloc(), (Alpha1, Digit1), "ab;1", None, &[("ab;1", ";1")]);
    parses(&rt, rt.alloc(), (Alpha1, cut_err(Digit1)), "ab", None, &[("ab", "")]);
    let asks = Failing(Incomplete(Needed::new(2)));
    parses(&rt, rt.alloc(), asks, "ab", None, &[("ab", "b")]);
}

/// Each error that `retry_after` records begins where its try did.
#[test]
fn retry_after_records(rt: HostRuntime) {
    let to_comma = || (take_till(0.., ','), ',').void();
    let setting = || (Alpha1, '=', Digit1).void();
    let two = [("a;,b=x,c=3", ";,b=x,c=3"), ("b=x,c=3", "x,c=3")];
    let settings = setting().retry_after(to_comma());
    parses(&rt, rt.alloc(), settings, "a;,b=x,c=3", Some(()), &two);
    let settings = cut_err(setting()).retry_after(to_comma());
    parses(&rt, rt.alloc(), settings, "a;,b=x,c=3", Some(()), &two);
}

/// An error from which `retry_after` does not recover: the recovering parser fails, or consumes
/// nothing.
#[test]
fn retry_after_fails(rt: HostRuntime) {
    let word = || (Alpha1, Digit1).void();
    let to_comma = || take_till(0.., ',').void();
    fails(&rt, rt.alloc(), word().retry_after((';', ',').void()), "ab;1", ("ab;1", ";1"), &[]);
    fails(&rt, rt.alloc(), word().retry_after(to_comma()), "ab,1", ("ab,1", ",1"), &[]);
    let behind_comma = (to_comma(), ',').void();
    let first = [("a,b;", ",b;")];
    fails(&rt, rt.alloc(), word().retry_after(behind_comma), "a,b;", ("b;", ";"), &first);
}

/// The error that ends a whole parse begins at the start of the input, whichever try failed.
#[test]
fn retry_after_ends_a_parse(rt: HostRuntime) {
    let behind_comma = (take_till(0.., ','), ',').void();
    let words = (Alpha1, Digit1).void().retry_after(behind_comma);
    parses(&rt, rt.alloc(), words, "a,b;", None, &[("a,b;", ",b;"), ("a,b;", ";")]);
}

/// The errors that `resume_after` records.
#[test]
fn resume_after_records(rt: HostRuntime) {
    let setting = || {
        (Alpha1, '=', Digit1).void().resume_after(take_till(0.., ',').void())
    };
    let two = [("k=x,l=y", "x,l=y"), ("l=y", "y")];
    let pair = (setting(), ',', setting());
    parses(&rt, rt.alloc(), pair, "k=x,l=y", Some((None, ',', None)), &two);
    let pair = (setting(), ',', setting());
    parses(&rt, rt.alloc(), pair, "k=1,l", Some((Some(()), ',', None)), &[("l", "")]);
}

/// An error from which `resume_after` does not recover.
#[test]
fn resume_after_fails(rt: HostRuntime) {
    let word = (Alpha1, cut_err(Digit1)).void().resume_after((';', ',').void());
    fails(&rt, rt.alloc(), word, "ab;1", ("ab;1", ";1"), &[]);
}

/// `record_err` gives the error both positions, in this order, and leaves the stream at a third.
#[test]
fn record_err(rt: HostRuntime) {
    let mut input: Text = Recoverable::new(rt.alloc(), "ab12");
    let start = input.checkpoint();
    let _token = input.next_token();
    let place = input.checkpoint();
    let _token = input.next_token();
    let back = Failure::from_input(&input);
    assert!(rt; input.record_err(&start, &place, back).is_ok(), "a backtrack");
    let cut = Failure::assert(&input, "why");
    assert!(rt; input.record_err(&place, &place, cut).is_ok(), "a cut");
    let (rest, errors) = input.into_parts();
    assert_eq!(rt; rest, "12");
    have_places(&rt, "ab12", &errors, &[("ab12", "b12"), ("b12", "b12")]);
}
