//! The error kinds of parsers and the remaining input, as in winnow's documentation.
use std::process::Abort;
use winnow::ascii::impls::{Alpha1, Digit1};
use winnow::combinator::{alt, cut_err, repeat};
use winnow::error::{EmptyError, ErrMode, ParseFault};
use winnow::Parser;

/// The observed result of a call, success, backtrack or cut, with the number of remaining bytes.
#[derive(Clone, Copy, Debug, PartialEq, Eq)]
enum Seen {
    Reads(usize),
    Backs(usize),
    Cuts(usize),
    Asks,
}

use Seen::{Backs, Cuts, Reads};

/// Checks the observed results of a parser on each text.
fn check<O: Drop, P: Parser<&'static [u8], O, ErrMode<EmptyError>> + Drop>(
    rt: &impl Abort,
    mut parser: P,
    rows: &[(&'static [u8], Seen)],
) {
    for (text, want) in rows {
        let mut input = *text;
        let answer: Result<O, ErrMode<EmptyError>> = parser.read_outcome(&mut input);
        let seen = match answer {
            Ok(_) => Reads(input.len()),
            Err(ErrMode::Backtrack(_)) => Backs(input.len()),
            Err(ErrMode::Cut(_)) => Cuts(input.len()),
            Err(ErrMode::Incomplete(_)) => Seen::Asks,
        };
        assert_eq!(rt; seen, *want);
    }
}

#[test]
fn leaves(rt: HostRuntime) {
    check(&rt, b'a', &[(b"", Backs(0)), (b"ba", Backs(2)), (b"ab", Reads(1))]);
    check(&rt, Alpha1, &[(b"1a", Backs(2)), (b"ab1", Reads(1))]);
}

#[test]
fn sequences(rt: HostRuntime) {
    let rows: &[(&[u8], Seen)] = &[
        (b"", Backs(0)),
        (b"a", Backs(0)),
        (b"a=", Cuts(0)),
        (b"a=b", Cuts(1)),
        (b"a=1", Backs(0)),
        (b"a=1;x", Reads(1)),
    ];
    check(&rt, (Alpha1, b'=', cut_err(Digit1), b';'), rows);
    let rows: &[(&[u8], Seen)] = &[(b"ac", Cuts(1)), (b"c", Backs(1)), (b"ab", Reads(0))];
    check(&rt, (b'a', cut_err(b'b')), rows);
    check(&rt, (b'a', b'b'), &[(b"ac", Backs(1)), (b"c", Backs(1)), (b"ab", Reads(0))]);
    check(&rt, cut_err((Digit1, b';')), &[(b"a", Cuts(1)), (b"1a", Cuts(1)), (b"1;a", Reads(1))]);
}

#[test]
fn choices(rt: HostRuntime) {
    let setting = Parser::<&[u8], _, ErrMode<EmptyError>>::void(((Alpha1, b'='), cut_err(Digit1)));
    let flag = Parser::<&[u8], _, ErrMode<EmptyError>>::void((Alpha1, b';'));
    let rows: &[(&[u8], Seen)] = &[
        (b"a=", Cuts(0)),
        (b"a=b", Cuts(1)),
        (b"a=1", Reads(0)),
        (b"a;", Reads(0)),
        (b"a", Backs(0)),
        (b"a1", Backs(1)),
        (b"1", Backs(1)),
    ];
    check(&rt, alt((setting, flag)), rows);
}

#[test]
fn repetitions(rt: HostRuntime) {
    let rows: &[(&[u8], Seen)] = &[
        (b"", Reads(0)),
        (b"ab", Reads(0)),
        (b"abac", Cuts(1)),
        (b"aba", Cuts(0)),
        (b"abc", Reads(1)),
    ];
    let item = (b'a', cut_err(b'b'));
    check::<(), _>(&rt, repeat(rt.alloc(), 0.., item), rows);
    let rows: &[(&[u8], Seen)] = &[
        (b"", Backs(0)),
        (b"c", Backs(1)),
        (b"ac", Cuts(1)),
        (b"abc", Reads(1)),
    ];
    let item = (b'a', cut_err(b'b'));
    check::<(), _>(&rt, repeat(rt.alloc(), 1.., item), rows);
    let rows: &[(&[u8], Seen)] = &[
        (b"ab", Backs(0)),
        (b"abac", Backs(1)),
        (b"ababababx", Reads(3)),
        (b"abab", Reads(0)),
    ];
    check::<(), _>(&rt, repeat(rt.alloc(), 2..=3, (b'a', b'b')), rows);
}

/// The offset of the error of a whole parse: where the remaining input starts.
#[test]
fn places(rt: HostRuntime) {
    let rows: &[(&[u8], Option<usize>)] = &[
        (b"a=1;", None),
        (b"a=;", Some(2)),
        (b"a", Some(1)),
        (b"a=1;;", Some(4)),
    ];
    for (text, want) in rows {
        let mut setting = (Alpha1, b'=', cut_err(Digit1), b';');
        let answer: Result<_, ParseFault<&[u8], EmptyError>> =
            Parser::<&[u8], _, ErrMode<EmptyError>>::parse_outcome(&mut setting, *text);
        let place = match answer {
            Ok(_) => None,
            Err(ParseFault::Invalid(fault)) => Some(fault.offset()),
            Err(ParseFault::Incomplete(_)) => Some(usize::MAX),
        };
        assert_eq!(rt; place, *want);
    }
}
