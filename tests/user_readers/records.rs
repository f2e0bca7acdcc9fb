//! Records: parts in order into a struct, a statement each or all in one parser.

use crate::choices::read_user;
use crate::forms::{Person, Request, read_person, read_request};
use test_support::rows::Modal;
use winnow::ascii::impls::{Alphanumeric1, Crlf, DecInt, HexUintParser, Space0};
use winnow::ascii::{alphanumeric1, dec_uint, newline, till_line_ending};
use winnow::combinator::{opt, preceded, separated_pair, terminated};
use winnow::error::{EmptyError, ErrMode};
use winnow::prelude::*;
use winnow::stream::{AsBStr, AsChar, Compare, ParseSlice, SlicesAsBytes};
use winnow::token::{take_till, take_while};

/// An entry of an access log.
#[derive(Clone, Copy, Debug, PartialEq, Eq)]
pub struct Entry<'i> {
    /// The host of the request.
    pub host: &'i str,
    /// Under which name, if any.
    pub user: Option<&'i str>,
    /// The status of the response.
    pub status: u16,
    /// How many bytes were sent.
    pub size: u64,
}

/// Reads an entry of an access log, as `10.0.0.7 frank 200 2326`, with the end of its line.
pub fn read_entry<'i>(input: &mut &'i str) -> Result<Entry<'i>, ErrMode<EmptyError>> {
    let host = take_till(1.., ' ').parse_next(input)?;
    ' '.parse_next(input)?;
    let user = read_user(input)?;
    ' '.parse_next(input)?;
    let status = dec_uint(input)?;
    ' '.parse_next(input)?;
    let size = dec_uint(input)?;
    newline(input)?;
    Ok(Entry {
        host,
        user,
        status,
        size,
    })
}

/// A day of the calendar.
#[derive(Clone, Copy, Debug, PartialEq, Eq)]
pub struct Date {
    /// The year.
    pub year: u16,
    /// The month, from 1 to 12.
    pub month: u8,
    /// The day of the month, from 1 to 31.
    pub day: u8,
}

/// Reads a number of `count` digits, over any stream of text.
fn read_digits<I, O, E>(count: usize, input: &mut I) -> Result<O, E>
where
    I: StreamIsPartial,
    I::Token: AsChar,
    I::Slice: ParseSlice<O>,
    E: ParserError<I>,
{
    take_while(count, '0'..='9')
        .parse_to()
        .parse_next(input)
}

/// Reads the two digits of a number from 1 to another, over any stream of text.
fn read_up_to<I, E>(most: u8, input: &mut I) -> Result<u8, E>
where
    I: StreamIsPartial,
    I::Token: AsChar,
    I::Slice: ParseSlice<u8>,
    E: ParserError<I>,
{
    take_while(2, '0'..='9')
        .parse_to()
        .verify(|number: &u8| 1 <= *number && *number <= most)
        .parse_next(input)
}

/// Reads a date, as `2026-11-25`.
pub fn read_date(input: &mut &str) -> Result<Date, ErrMode<EmptyError>> {
    let year = read_digits(4, input)?;
    '-'.parse_next(input)?;
    let month = read_up_to(12, input)?;
    '-'.parse_next(input)?;
    let day = read_up_to(31, input)?;
    Ok(Date { year, month, day })
}

/// A color.
#[derive(Clone, Copy, Debug, PartialEq, Eq)]
pub struct Color {
    /// How much red.
    pub red: u8,
    /// How much green.
    pub green: u8,
    /// How much blue.
    pub blue: u8,
}

/// Reads the two hexadecimal digits of a part of a color, over any stream of text.
fn read_part<I, E>(input: &mut I) -> Result<u8, E>
where
    I: StreamIsPartial,
    I::Token: AsChar + Copy,
    I::Slice: StreamIsPartial + SlicesAsBytes,
    <I::Slice as Stream>::Token: AsChar,
    <I::Slice as Stream>::Slice: AsBStr,
    E: ParserError<I> + ParserError<I::Slice>,
{
    take_while(2, ('0'..='9', 'a'..='f', 'A'..='F'))
        .and_then(HexUintParser)
        .parse_next(input)
}

/// Reads a color, as `#2F14DF`.
pub fn read_color(input: &mut &str) -> Result<Color, ErrMode<EmptyError>> {
    '#'.parse_next(input)?;
    let red = read_part(input)?;
    let green = read_part(input)?;
    let blue = read_part(input)?;
    Ok(Color { red, green, blue })
}

/// A point of the plane.
#[derive(Clone, Copy, Debug, PartialEq, Eq)]
pub struct Point {
    /// How far to the right.
    pub x: i32,
    /// How far up.
    pub y: i32,
}

/// Reads two numbers with a comma between them, over any stream of text.
fn read_pair<I, E>(input: &mut I) -> Result<(i32, i32), E>
where
    I: StreamIsPartial + SlicesAsBytes + Compare<char>,
    I::Token: AsChar,
    I::Slice: AsBStr,
    E: ParserError<I>,
{
    separated_pair(DecInt, ',', DecInt).parse_next(input)
}

/// Reads a point, as `(1,-2)`.
pub fn read_point(input: &mut &str) -> Result<Point, ErrMode<EmptyError>> {
    '('.parse_next(input)?;
    let (x, y) = read_pair(input)?;
    ')'.parse_next(input)?;
    Ok(Point { x, y })
}

/// Reads the sign between a name and a text, with whitespace round it; over any stream of text.
fn read_sign<I, E>(input: &mut I) -> Result<(), E>
where
    I: StreamIsPartial + Compare<char>,
    I::Token: AsChar,
    E: ParserError<I>,
{
    (Space0, '=', Space0).void().parse_next(input)
}

/// Reads a name and what it is set to, with whitespace round the sign, as `name = any text`.
pub fn read_assignment<'i>(input: &mut &'i str) -> Result<(&'i str, &'i str), ErrMode<EmptyError>> {
    let name = alphanumeric1(input)?;
    read_sign(input)?;
    let text = till_line_ending(input)?;
    Ok((name, text))
}

/// A version of a program.
#[derive(Clone, Copy, Debug, PartialEq, Eq)]
pub struct Version<'i> {
    /// The number of incompatible changes.
    pub major: u64,
    /// The number of additions.
    pub minor: u64,
    /// The number of fixes.
    pub patch: u64,
    /// The label of a prerelease, as `beta`.
    pub label: Option<&'i str>,
}

/// Reads an optional label after a version, as `-beta`; over any stream of text.
fn read_label<I, E>(input: &mut I) -> Result<Option<I::Slice>, E>
where
    I: StreamIsPartial + Compare<char>,
    I::Token: AsChar,
    E: ParserError<I>,
{
    opt(preceded('-', Alphanumeric1)).parse_next(input)
}

/// Reads a version, as `1.2.3` or `1.2.3-beta`.
pub fn read_version<'i>(input: &mut &'i str) -> Result<Version<'i>, ErrMode<EmptyError>> {
    let major = dec_uint(input)?;
    '.'.parse_next(input)?;
    let minor = dec_uint(input)?;
    '.'.parse_next(input)?;
    let patch = dec_uint(input)?;
    let label = read_label(input)?;
    Ok(Version {
        major,
        minor,
        patch,
        label,
    })
}

/// Reads the length of a chunk, in hexadecimal digits, with the end of its line; over any stream
/// of bytes or text.
pub fn read_chunk_length<I, E>(input: &mut I) -> Result<u64, E>
where
    I: StreamIsPartial + SlicesAsBytes + Compare<&'static str>,
    I::Token: AsChar,
    I::Slice: AsBStr,
    E: ParserError<I>,
{
    terminated(HexUintParser, Crlf).parse_next(input)
}

#[test]
fn entries(rt: HostRuntime) {
    let mut input = "10.0.0.7 frank 200 2326\n10.0.0.8 - 404 0\nend";
    let first = Entry {
        host: "10.0.0.7",
        user: Some("frank"),
        status: 200,
        size: 2326,
    };
    assert_eq!(rt; read_entry(&mut input).ok(), Some(first));
    let second = Entry {
        host: "10.0.0.8",
        user: None,
        status: 404,
        size: 0,
    };
    assert_eq!(rt; read_entry(&mut input).ok(), Some(second));
    assert_eq!(rt; input, "end");
    assert!(rt; read_entry(&mut input).is_err());
    assert!(rt; read_entry(&mut "10.0.0.7 frank 70000 1\n").is_err());
    assert!(rt; read_entry(&mut "10.0.0.7 frank 200 1").is_err());
}

#[test]
fn dates(rt: HostRuntime) {
    let mut input = "2026-11-25T";
    let date = Date {
        year: 2026,
        month: 11,
        day: 25,
    };
    assert_eq!(rt; read_date(&mut input).ok(), Some(date));
    assert_eq!(rt; input, "T");
    for text in ["2026-13-25", "2026-11-00", "2026-1-25", "+026-11-25", "2026/11/25", ""] {
        let mut input = text;
        assert!(rt; matches!(read_date(&mut input), Err(ErrMode::Backtrack(_))));
    }
}

#[test]
fn points_and_colors(rt: HostRuntime) {
    assert_eq!(rt; read_point(&mut "(1,-2)").ok(), Some(Point { x: 1, y: -2 }));
    assert!(rt; read_point(&mut "(1,2").is_err());
    assert!(rt; read_point(&mut "(1;2)").is_err());
    assert!(rt; read_point(&mut "(2147483648,0)").is_err());
    let color = Color {
        red: 47,
        green: 20,
        blue: 223,
    };
    let mut input = "#2F14df0";
    assert_eq!(rt; read_color(&mut input).ok(), Some(color));
    assert_eq!(rt; input, "0");
    assert!(rt; read_color(&mut "#2F14d").is_err());
    assert!(rt; read_color(&mut "#2F14dg").is_err());
    assert!(rt; read_color(&mut "2F14DF").is_err());
}

#[test]
fn names(rt: HostRuntime) {
    let mut input = "name \t= any text \r\nrest";
    assert_eq!(rt; read_assignment(&mut input).ok(), Some(("name", "any text ")));
    assert_eq!(rt; input, "\r\nrest");
    assert_eq!(rt; read_assignment(&mut "a=").ok(), Some(("a", "")));
    assert!(rt; read_assignment(&mut "a : b").is_err());
    assert!(rt; read_assignment(&mut "= b").is_err());
    let person = Person {
        name: "Ada Lovelace",
        mail: "ada@example.org",
    };
    let mut input = "Ada Lovelace <ada@example.org>, others";
    assert_eq!(rt; read_person(&mut input).ok(), Some(person));
    assert_eq!(rt; input, ", others");
    assert!(rt; read_person(&mut "Ada Lovelace").is_err());
    assert!(rt; read_person(&mut "Ada <>").is_err());
    assert!(rt; read_person(&mut "Ada <ada").is_err());
}

#[test]
fn versions(rt: HostRuntime) {
    let mut version = Version {
        major: 1,
        minor: 20,
        patch: 3,
        label: None,
    };
    assert_eq!(rt; read_version(&mut "1.20.3").ok(), Some(version));
    version.label = Some("beta");
    let mut input = "1.20.3-beta.2";
    assert_eq!(rt; read_version(&mut input).ok(), Some(version));
    assert_eq!(rt; input, ".2");
    assert!(rt; read_version(&mut "1.20").is_err());
    assert!(rt; read_version(&mut "1.x.3").is_err());
    assert!(rt; read_version(&mut "18446744073709551616.0.0").is_err());
}

#[test]
fn bytes(rt: HostRuntime) {
    let request = Request {
        method: b"GET".as_slice(),
        target: b"/index".as_slice(),
    };
    let mut input = b"GET /index HTTP/1.1\r\nHost: a".as_slice();
    assert_eq!(rt; read_request(&mut input).ok(), Some(request));
    assert_eq!(rt; input, b"Host: a".as_slice());
    assert!(rt; read_request(&mut b"get / HTTP/1.1\r\n".as_slice()).is_err());
    assert!(rt; read_request(&mut b"GET  HTTP/1.1\r\n".as_slice()).is_err());
    assert!(rt; read_request(&mut b"GET / HTTP/1.0\r\n".as_slice()).is_err());
    assert_eq!(rt; read_chunk_length::<&[u8], Modal>(&mut b"1aF\r\n".as_slice()).ok(), Some(431));
    assert!(rt; read_chunk_length::<&[u8], Modal>(&mut b"1aF\n".as_slice()).is_err());
    assert!(rt; read_chunk_length::<&[u8], Modal>(&mut b"10000000000000000\r\n".as_slice()).is_err());
}
