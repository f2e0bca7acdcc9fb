//! Whole parses, an item a run.
use std::fmt::Debug;
use std::process::Abort;
use stream_errors::empty::EmptyError;
use stream_errors::fault::ParseFault;
use stream_errors::mode::ErrMode;
use stream_errors::parser_error::ParserError;
use stream_sets::sets::Pred;
use streams::locating::LocatingSlice;
use streams::needed::Needed;
use streams::stream::{Stream, StreamIsPartial};
use test_support::rows::{Modal, same};
use test_support::texts::OfText;
use winnow_core::combinator::impls::ParseIter;
use winnow_core::parser::{Func, Parser};
use winnow_token::token;
use winnow_token::token::impls::{Any, RestLen};

/// How a parse in items ends: all is read, or the error.
#[derive(Clone, Copy, Debug, PartialEq, Eq)]
enum End {
    Read,
    Invalid(usize),
    Lacks(Needed),
}

/// Checks that a parser returns these items of the input, ends as given, and then returns `None`.
/// The input of an error is reset to its start.
fn gives<I, O: PartialEq + Debug + Copy, E: ParserError<I>, P: Parser<I, O, E> + Drop>(
    rt: &impl Abort,
    row: &str,
    mut parser: P,
    input: I,
    items: &[O],
    want: End,
)
where
    I: StreamIsPartial + PartialEq + Debug + Copy,
{
    let mut all: ParseIter<'_, P, I, O, E> = parser.parse_iter(input);
    for item in items {
        match all.next() {
            Some(Ok(output)) => same(rt, "parse_iter", row, output, *item),
            _ => assert!(rt; false, "parse_iter at {row:?} gives no {item:?}"),
        }
    }
    let end = match all.next() {
        None => End::Read,
        Some(Ok(_)) => {
            assert!(rt; false, "parse_iter at {row:?} gives an item more");
            End::Read
        }
        Some(Err(ParseFault::Invalid(error))) => {
            same(rt, "parse_iter, its input", row, *error.input(), input);
            End::Invalid(error.offset())
        }
        Some(Err(ParseFault::Incomplete(needed))) => End::Lacks(needed),
    };
    same(rt, "parse_iter, its end", row, end, want);
    same(
        rt,
        "parse_iter, behind its end",
        row,
        all.next().is_none(),
        true,
    );
}

/// Slices of two tokens, and of digits: the offset of an error is counted from the first start, in
/// units, and an item that consumes no input is an error.
fn slices<I, E: ParserError<I>>(rt: &impl Abort)
where
    I: OfText + Copy + Stream<Token = char, Slice = &'static str>,
{
    for (text, items, end) in [
        ("abc", ["ab"].as_slice(), End::Invalid(2)),
        ("abcd", ["ab", "cd"].as_slice(), End::Read),
        ("", [].as_slice(), End::Read),
    ] {
        let pair = token::take::<_, I, E>(2usize);
        gives::<I, &str, E, _>(rt, text, pair, I::of_text(text), items, end);
    }
    for (text, items, end) in [
        ("12a3", ["12"].as_slice(), End::Invalid(2)),
        ("12", ["12"].as_slice(), End::Read),
        ("a", [].as_slice(), End::Invalid(0)),
    ] {
        let digits = token::take_while::<_, I, E, _>(
            0..,
            Pred(|c: char| c.is_ascii_digit()),
        );
        gives::<I, &str, E, _>(rt, text, digits, I::of_text(text), items, end);
    }
    for (text, end) in [("ab", End::Invalid(0)), ("", End::Read)] {
        gives::<I, usize, E, _>(rt, text, RestLen, I::of_text(text), &[], end);
    }
    // The start is where the input was when it was passed.
    let mut input = I::of_text("xabc");
    let _x = input.next_token();
    let pair = token::take::<_, I, E>(2usize);
    gives::<I, &str, E, _>(rt, "behind x", pair, input, &["ab"], End::Invalid(2));
    let mut any = Any;
    let all: ParseIter<'_, Any, I, char, E> = any.parse_iter(I::of_text("éab"));
    let mut count = 0u8;
    for item in all {
        same(rt, "parse_iter in a loop", "éab", item.is_ok(), true);
        count += 1;
    }
    same(rt, "parse_iter in a loop", "éab", count, 3);
}

#[test]
fn parse_iter(rt: HostRuntime) {
    slices::<&str, Modal>(&rt);
    slices::<LocatingSlice<&str>, Modal>(&rt);
    // The place is where the failing run left the input, and units of text are bytes.
    let (items, end) = ([('é', 'a')], End::Invalid(4));
    gives::<&str, _, EmptyError, _>(&rt, "éab", (Any, Any), "éab", &items, end);
    gives::<&str, _, Modal, _>(&rt, "éab", (Any, Any), "éab", &items, end);
}

/// A need ends it too.
#[test]
fn parse_iter_of_needs(rt: HostRuntime) {
    let first = Func(|input: &mut &[u8]| {
        let answer: Result<u8, Modal> = match b'a'.parse_next(input) {
            Err(ErrMode::Backtrack(_)) => Err(ErrMode::Incomplete(Needed::new(3))),
            other => other,
        };
        answer
    });
    let lacks = End::Lacks(Needed::new(3));
    gives::<&[u8], u8, Modal, _>(&rt, "aab", first, b"aab", b"aa", lacks);
}

/// The state of the parser is kept from item to item, and to the next parse.
#[test]
fn parse_iter_with_state(rt: HostRuntime) {
    let mut calls = 0u8;
    let mut counted = Any.map(move |_: char| {
        calls += 1;
        calls
    });
    for (text, items) in [("ab", [1, 2].as_slice()), ("", &[]), ("c", &[3])] {
        gives::<&str, u8, EmptyError, _>(&rt, text, counted.by_ref(), text, items, End::Read);
    }
}
