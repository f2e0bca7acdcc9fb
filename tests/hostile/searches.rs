//! Worst cases of searches, of up to 128 KiB: a search that looked at an offset again and again would
//! exceed the time limit of a test.
use crate::counts::times;
use std::alloc::Global;
use std::test::Fail;
use stream_errors::empty::EmptyError;
use test_support::outcomes::Kind::{self, Backtrack};
use test_support::outcomes::outcome_of;
use winnow_ascii::ascii::impls::{LineEnding, TillLineEnding};
use winnow_repeat::combinator::impls::Repeat;
use winnow_repeat::combinator::repeat;
use winnow_token::token::impls::{Any, TakeUntil};
use winnow_token::token::take_until;

/// The bytes of the inputs.
const SIZE: usize = 1 << 17;

/// Returns how many bytes precede a literal, and how many remain.
fn before<'b>(literal: &'b [u8], bytes: &'b [u8]) -> (Result<usize, Kind>, usize) {
    let mut parser: TakeUntil<&[u8], &[u8], EmptyError> = take_until(0.., literal);
    let (answer, rest) = outcome_of::<&[u8], &[u8], EmptyError, _>(&mut parser, bytes);
    match answer {
        Ok(slice) => (Ok(slice.len()), rest.len()),
        Err(kind) => (Err(kind), rest.len()),
    }
}

/// Long literals that almost match at every offset.
#[test]
fn take_until_long_literals(rt: HostRuntime) -> Result<(), Fail> {
    let alloc = rt.alloc();
    let half = SIZE / 8;
    let text = times(alloc, (b"", b"aaaaaaaa", SIZE / 8, b""))?;
    // The last byte differs, the first, and one in the middle.
    let last = times(alloc, (b"", b"a", half, b"b"))?;
    let first = times(alloc, (b"b", b"a", half, b""))?;
    let mut middle = times(alloc, (b"", b"a", half, b"b"))?;
    middle.extend_from_slice(first.as_slice())?;
    for literal in [&last, &first, &middle] {
        let got = before(literal.as_slice(), text.as_slice());
        assert_eq!(rt; got, (Err(Backtrack), SIZE), "a literal that is not there");
    }
    // A periodic literal, and one that occurs at the end.
    let text = times(alloc, (b"", b"abababab", SIZE / 8, b"c"))?;
    let period = times(alloc, (b"", b"ab", half, b"b"))?;
    let got = before(period.as_slice(), text.as_slice());
    assert_eq!(rt; got, (Err(Backtrack), SIZE + 1), "a literal of a period");
    let stands = times(alloc, (b"", b"ab", half, b"c"))?;
    let got = before(stands.as_slice(), text.as_slice());
    let want = (Ok(SIZE - 2 * half), 2 * half + 1);
    assert_eq!(rt; got, want, "a literal that stands last");
    Ok(())
}

/// A repetition of takes until a member of a literal, and of a token, over all of a text.
macro_rules! pieces {
    ($rt:expr; $literal:expr, $of:ty, $text:expr, $want:expr) => {{
        let piece: TakeUntil<$of, &str, EmptyError> = take_until(0.., $literal);
        let mut parser: Repeat<_, &str, (&str, char), usize, EmptyError, Global> = repeat(
            $rt.alloc(),
            0..,
            (piece, Any),
        );
        let (answer, rest) = outcome_of::<&str, usize, EmptyError, _>(&mut parser, $text);
        assert_eq!($rt; (answer, rest.len()), (Ok($want), 0), "{:?}", $literal);
    }};
}

/// One member of the tuple is all over the text, and the others are nowhere, or all but there.
#[test]
fn take_until_members_that_are_nowhere(rt: HostRuntime) -> Result<(), Fail> {
    let alloc = rt.alloc();
    let pieces_of = SIZE / 64;
    let bytes = times(alloc, (b"", b"aaaaaaaaaaaaaaa,", pieces_of, b""))?;
    let Ok(text) = std::str::from_utf8(bytes.as_slice()) else {
        panic!(rt; "it is text");
    };
    pieces!(rt; (';', ','), (char, char), text, pieces_of);
    pieces!(rt; (',', ';', '|'), (char, char, char), text, pieces_of);
    pieces!(rt; ",", &str, text, pieces_of);
    // Characters whose first bytes are those of the text's.
    let bytes = times(alloc, (b"", "àèàèàèàß".as_bytes(), pieces_of, b""))?;
    let Ok(text) = std::str::from_utf8(bytes.as_slice()) else {
        panic!(rt; "it is text");
    };
    pieces!(rt; ('é', 'ù', 'ß'), (char, char, char), text, pieces_of);
    Ok(())
}

/// Lines without a carriage return, each up to its end.
#[test]
fn till_line_ending_of_many_lines(rt: HostRuntime) -> Result<(), Fail> {
    let lines = SIZE / 64;
    let bytes = times(rt.alloc(), (b"", b"a line of text.\n", lines, b""))?;
    let mut parser: Repeat<_, &[u8], (&[u8], &[u8]), usize, EmptyError, Global> = repeat(
        rt.alloc(),
        0..,
        (TillLineEnding, LineEnding),
    );
    let (answer, rest) = outcome_of::<&[u8], usize, EmptyError, _>(&mut parser, bytes.as_slice());
    assert_eq!(rt; (answer, rest.len()), (Ok(lines), 0), "lines");
    Ok(())
}
