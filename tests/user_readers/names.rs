//! Parsers without arguments as values, under winnow's names: each of `winnow::parsers`.

use test_support::rows::Modal;
use winnow::combinator::{opt, separated_pair};
use winnow::parsers::{
    alpha0, alpha1, alphanumeric0, alphanumeric1, any, be_i8, be_i16, be_i24, be_i32, be_i64,
    be_i128, be_u8, be_u16, be_u24, be_u32, be_u64, be_u128, crlf, dec_int, dec_uint, digit0,
    digit1, empty, eof, fail, hex_digit0, hex_digit1, hex_uint, le_i8, le_i16, le_i24, le_i32,
    le_i64, le_i128, le_u8, le_u16, le_u24, le_u32, le_u64, le_u128, line_ending, multispace0,
    multispace1, newline, oct_digit0, oct_digit1, rest, rest_len, space0, space1, tab,
    till_line_ending,
};
use winnow::prelude::*;

/// Parses a name and a number, as in winnow.
fn read_setting<'i>(input: &mut &'i str) -> Result<(&'i str, u32), Modal> {
    separated_pair(alpha1, '=', dec_uint).parse_next(input)
}

#[test]
fn names_of_text(rt: HostRuntime) {
    assert_eq!(rt; read_setting(&mut "width=12;").ok(), Some(("width", 12)));
    // One token at least, and none.
    for (found, left, output) in [
        (alpha1.parse_peek("aZ1"), "1", "aZ"),
        (alphanumeric1.parse_peek("a1_"), "_", "a1"),
        (digit1.parse_peek("19a"), "a", "19"),
        (hex_digit1.parse_peek("9fg"), "g", "9f"),
        (oct_digit1.parse_peek("178"), "8", "17"),
        (space1.parse_peek(" \t\n"), "\n", " \t"),
        (multispace1.parse_peek(" \t\r\n;"), ";", " \t\r\n"),
        (alpha0.parse_peek("1a"), "1a", ""),
        (alphanumeric0.parse_peek("_a"), "_a", ""),
        (digit0.parse_peek("a1"), "a1", ""),
        (hex_digit0.parse_peek("g1"), "g1", ""),
        (oct_digit0.parse_peek("81"), "81", ""),
        (space0.parse_peek("\n "), "\n ", ""),
        (multispace0.parse_peek("; "), "; ", ""),
        (crlf.parse_peek("\r\n\n"), "\n", "\r\n"),
        (line_ending.parse_peek("\n\n"), "\n", "\n"),
        (till_line_ending.parse_peek("ab\n"), "\n", "ab"),
        (rest.parse_peek("ab"), "", "ab"),
        (eof.parse_peek(""), "", ""),
    ] {
        assert_eq!(rt; found, Ok::<_, Modal>((left, output)));
    }
    let tokens = (tab, newline, any).parse_peek("\t\na;");
    assert_eq!(rt; tokens, Ok::<_, Modal>((";", ('\t', '\n', 'a'))));
    let numbers = (dec_uint, dec_int, (';', hex_uint)).parse_peek("12-7;ff");
    assert_eq!(rt;
        numbers,
        Ok::<_, Modal>(("", (12_u8, -7_i8, (';', 255_u8))))
    );
    let nothing = (empty, rest_len, opt(fail)).parse_peek("ab");
    assert_eq!(rt; nothing, Ok::<_, Modal>(("ab", ((), 2, None::<char>))));
}

#[test]
fn names_of_integers(rt: HostRuntime) {
    let bytes = [0, 0, 0, 0, 0, 0, 0, 0, 0, 0, 0, 0, 0, 0, 0, 1].as_slice();
    for (found, value) in [
        (be_u128.parse_peek(bytes), 1),
        (le_u128.parse_peek(bytes), 1 << 120),
        (be_u64.map(|n: u64| n as u128).parse_peek(&bytes[8..]), 1),
        (
            le_u64.map(|n: u64| n as u128).parse_peek(&bytes[8..]),
            1 << 56,
        ),
        (be_u32.map(|n: u32| n as u128).parse_peek(&bytes[12..]), 1),
        (
            le_u32.map(|n: u32| n as u128).parse_peek(&bytes[12..]),
            1 << 24,
        ),
        (be_u24.map(|n: u32| n as u128).parse_peek(&bytes[13..]), 1),
        (
            le_u24.map(|n: u32| n as u128).parse_peek(&bytes[13..]),
            1 << 16,
        ),
        (be_u16.map(|n: u16| n as u128).parse_peek(&bytes[14..]), 1),
        (
            le_u16.map(|n: u16| n as u128).parse_peek(&bytes[14..]),
            1 << 8,
        ),
        (be_u8.map(|n: u8| n as u128).parse_peek(&bytes[15..]), 1),
        (le_u8.map(|n: u8| n as u128).parse_peek(&bytes[15..]), 1),
    ] {
        assert_eq!(rt; found, Ok::<_, Modal>((&bytes[16..], value)));
    }
    let bytes = [0xFF; 16].as_slice();
    for (found, length) in [
        (be_i128.parse_peek(bytes), 16),
        (le_i128.parse_peek(bytes), 16),
        (be_i64.map(|n: i64| n as i128).parse_peek(bytes), 8),
        (le_i64.map(|n: i64| n as i128).parse_peek(bytes), 8),
        (be_i32.map(|n: i32| n as i128).parse_peek(bytes), 4),
        (le_i32.map(|n: i32| n as i128).parse_peek(bytes), 4),
        (be_i24.map(|n: i32| n as i128).parse_peek(bytes), 3),
        (le_i24.map(|n: i32| n as i128).parse_peek(bytes), 3),
        (be_i16.map(|n: i16| n as i128).parse_peek(bytes), 2),
        (le_i16.map(|n: i16| n as i128).parse_peek(bytes), 2),
        (be_i8.map(|n: i8| n as i128).parse_peek(bytes), 1),
        (le_i8.map(|n: i8| n as i128).parse_peek(bytes), 1),
    ] {
        assert_eq!(rt; found, Ok::<_, Modal>((&bytes[length..], -1)));
    }
}
