//! Rows of numbers and their sums, and lines of which bad ones are passed over.

use super::numbers::read_temperature;
use std::alloc::Allocator;
use test_support::rows::Modal;
use winnow::ascii::impls::{DecUint, Space0};
use winnow::combinator::{opt, preceded, repeat, separated};
use winnow::error::{EmptyError, ErrMode};
use winnow::prelude::*;
use winnow::stream::{AsBStr, AsChar, Compare, SlicesAsBytes};

/// Reads numbers with commas between them, over any stream of text.
fn read_numbers<I, E, A>(alloc: A, input: &mut I) -> Result<Vec<u32, A>, E>
where
    I: StreamIsPartial + SlicesAsBytes + Compare<char>,
    I::Token: AsChar,
    I::Slice: AsBStr,
    E: ParserError<I>,
    A: Allocator + Copy,
{
    separated(alloc, 0.., DecUint.map(|number: u32| number), ',').parse_next(input)
}

/// Reads numbers with commas between them, and one more comma or none.
pub fn read_row<A: Allocator + Copy>(
    alloc: A,
    input: &mut &str,
) -> Result<Vec<u32, A>, ErrMode<EmptyError>> {
    let row = read_numbers(alloc, input)?;
    let _comma: Option<char> = opt(',').parse_next(input)?;
    Ok(row)
}

/// Reads numbers with spaces before each, and answers their sum, over any stream of text. One that
/// is too great for the type is its greatest.
pub fn read_total<I, E, A>(alloc: A, input: &mut I) -> Result<u64, E>
where
    I: StreamIsPartial + SlicesAsBytes,
    I::Token: AsChar,
    I::Slice: AsBStr,
    E: ParserError<I>,
    A: Allocator + Copy,
{
    repeat(alloc, 1.., preceded(Space0, DecUint))
        .fold(|| 0, |sum: u64, number: u64| sum.saturating_add(number))
        .parse_next(input)
}

/// How many lines of a text are temperatures, and how many are not: a bad line is passed over.
pub fn count_temperatures(text: &str) -> (u64, u64) {
    let mut good = 0u64;
    let mut bad = 0u64;
    for line in text.lines() {
        let mut left = line;
        match read_temperature(&mut left) {
            Ok(_) if left.is_empty() => good = good.saturating_add(1),
            _ => bad = bad.saturating_add(1),
        }
    }
    (good, bad)
}

#[test]
fn rows_and_lines(rt: HostRuntime) {
    for text in ["1,2,;", "1,2;"] {
        let mut input = text;
        let row = read_row(rt.alloc(), &mut input);
        assert!(rt; matches!(&row, Ok(list) if list.as_slice() == [1, 2].as_slice()));
        assert_eq!(rt; input, ";");
    }
    assert_eq!(rt; count_temperatures("12\n99\n-3\nx\n7 \n"), (2, 3));
    assert_eq!(rt; count_temperatures(""), (0, 0));
}

#[test]
fn sums(rt: HostRuntime) {
    let mut input = " 12 7;";
    assert_eq!(rt; read_total::<&str, Modal, _>(rt.alloc(), &mut input).ok(), Some(19));
    assert_eq!(rt; input, ";");
    assert!(rt; read_total::<&str, Modal, _>(rt.alloc(), &mut ";").is_err());
}
