//! The text of each error of the library, written by hand.
use std::alloc::Global;
use std::fmt::Display;
use std::process::Abort;
use test_support::refusing::Refusing;
use winnow::error::{ContextError, ControlError, EmptyError, ErrMode, ExpectedError, InputError};
use winnow::error::{Needed, ParseError, ParseFault};
use winnow::prelude::*;

/// Checks the printed form of an error.
fn prints(rt: &impl Abort, alloc: Global, error: impl Display + Drop, wanted: &str) {
    let text = format!(in alloc; "{error}").unwrap();
    assert_eq!(rt; text.as_str(), wanted);
}

#[test]
fn plain_errors(rt: HostRuntime) {
    let alloc = rt.alloc();
    let empty: EmptyError = ParserError::<&str>::from_input(&"ab");
    prints(&rt, alloc, empty, "failed to parse");
    let empty: EmptyError = ParserError::<&str>::no_memory(&"ab");
    prints(&rt, alloc, empty, "out of memory");
    prints(&rt, alloc, ControlError::Invalid, "failed to parse");
    prints(&rt, alloc, ControlError::NoMemory, "out of memory");
    prints(&rt, alloc, InputError::at("ab"), "failed to parse starting at: ab");
    prints(&rt, alloc, InputError::at(""), "failed to parse starting at: ");
    prints(&rt, alloc, InputError::no_memory(&"ab"), "out of memory");
}

/// A mode is not printed, and a need is.
#[test]
fn errors_with_a_mode(rt: HostRuntime) {
    let alloc = rt.alloc();
    prints(&rt, alloc, ErrMode::Backtrack(InputError::at("ab")), "failed to parse starting at: ab");
    prints(&rt, alloc, ErrMode::Cut(InputError::at("ab")), "failed to parse starting at: ab");
    let needs = |needed| -> ErrMode<EmptyError> { ErrMode::Incomplete(needed) };
    prints(&rt, alloc, needs(Needed::new(1)), "parsing requires 1 more data");
    prints(&rt, alloc, needs(Needed::new(24)), "parsing requires 24 more data");
    prints(&rt, alloc, needs(Needed::Unknown), "parsing requires more data");
    let none: ErrMode<EmptyError> = ErrMode::no_memory(&"ab");
    prints(&rt, alloc, none, "out of memory");
}

#[test]
fn contexts(rt: HostRuntime) {
    let alloc = rt.alloc();
    let none: ContextError<&str> = ContextError::new();
    prints(&rt, alloc, none, "failed to parse");
    for (contexts, wanted) in [
        (["a number"].as_slice(), "expected a number"),
        (["a number", "a width"].as_slice(), "expected a number in a width"),
        (["a number", "a width", "a box"].as_slice(), "expected a number in a width in a box"),
    ] {
        let mut error = ContextError::new();
        for context in contexts {
            error.push(alloc, *context);
        }
        prints(&rt, alloc, error, wanted);
    }
}

/// An error whose contexts found no memory prints none of them.
#[test]
fn contexts_without_memory(rt: HostRuntime) {
    let none: ContextError<&str> = ParserError::<&str>::no_memory(&"ab");
    prints(&rt, rt.alloc(), none, "out of memory");
    let heap = Refusing::always_from(rt.alloc(), 0);
    let mut error = ContextError::new();
    error.push(&heap, "a number");
    prints(&rt, rt.alloc(), error, "out of memory");
    let mut error = ExpectedError::new();
    error.push(&heap, "a number");
    prints(&rt, rt.alloc(), error, "out of memory");
}

#[test]
fn expected_items(rt: HostRuntime) {
    let alloc = rt.alloc();
    let none: ExpectedError<&str> = ExpectedError::new();
    prints(&rt, alloc, none, "failed to parse");
    let none: ExpectedError<&str> = ParserError::<&str>::no_memory(&"ab");
    prints(&rt, alloc, none, "out of memory");
    for (items, within, wanted) in [
        (["on"].as_slice(), [].as_slice(), "expected on"),
        (["on", "off"].as_slice(), [].as_slice(), "expected on or off"),
        (["on", "off", "auto"].as_slice(), [].as_slice(), "expected on, off or auto"),
        (["a", "b", "c", "d"].as_slice(), [].as_slice(), "expected a, b, c or d"),
        (["on"].as_slice(), ["a value"].as_slice(), "expected on in a value"),
        (
            ["on", "off"].as_slice(),
            ["a value", "a line"].as_slice(),
            "expected on or off in a value in a line",
        ),
    ] {
        let mut all = ExpectedError::new();
        for item in items {
            let mut one = ExpectedError::new();
            one.push(alloc, *item);
            all = all.joined(one);
        }
        for context in within {
            all.push(alloc, *context);
        }
        prints(&rt, alloc, all, wanted);
    }
}

/// The excerpt of the input, then the inner error on a line of its own.
#[test]
fn whole_parses(rt: HostRuntime) {
    let alloc = rt.alloc();
    let wanted = "parse error at line 2, column 2\n  |\n2 | cd\n  |  ^\nfailed to parse";
    let refused = || -> ParseError<&str, EmptyError> {
        let whole = "ab\ncd";
        let mut input = whole;
        let _slice = input.next_slice(4);
        let inner = ParserError::<&str>::from_input(&input);
        ParseError::new(input, whole.checkpoint(), inner)
    };
    prints(&rt, alloc, refused(), wanted);
    let fault: ParseFault<&str, EmptyError> = ParseFault::Invalid(refused());
    prints(&rt, alloc, fault, wanted);
    let needs = |needed| -> ParseFault<&str, EmptyError> { ParseFault::Incomplete(needed) };
    prints(&rt, alloc, needs(Needed::new(2)), "parsing requires 2 more data");
    prints(&rt, alloc, needs(Needed::Unknown), "parsing requires more data");
}
