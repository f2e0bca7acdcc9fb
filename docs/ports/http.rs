//! Heads of HTTP/1 requests (RFC 9112).

use winnow::ascii::{line_ending, space0};
use winnow::combinator::{preceded, repeat, separated_pair, terminated};
use winnow::prelude::*;
use winnow::token::{one_of, take_till, take_while};

#[derive(Debug, PartialEq)]
struct Head<'i> {
    method: &'i [u8],
    target: &'i [u8],
    version: u8,
    fields: Vec<Field<'i>>,
}

#[derive(Debug, PartialEq)]
struct Field<'i> {
    name: &'i [u8],
    value: &'i [u8],
}

/// Parses a request line, fields, and the empty line after them.
fn head<'i>(input: &mut &'i [u8]) -> ModalResult<Head<'i>> {
    let method = terminated(token, b' ').parse_next(input)?;
    let target = terminated(target, b' ').parse_next(input)?;
    let version = terminated(version, line_ending).parse_next(input)?;
    let fields = terminated(repeat(0.., field), line_ending).parse_next(input)?;
    Ok(Head {
        method,
        target,
        version,
        fields,
    })
}

/// Parses the minor version.
fn version(input: &mut &[u8]) -> ModalResult<u8> {
    let digit = preceded("HTTP/1.", one_of(b'0'..=b'9')).parse_next(input)?;
    Ok(digit - b'0')
}

/// Parses a field, and its line ending.
fn field<'i>(input: &mut &'i [u8]) -> ModalResult<Field<'i>> {
    let value = terminated(text, line_ending);
    let (name, value) = separated_pair(token, (b':', space0), value).parse_next(input)?;
    Ok(Field { name, value })
}

/// Parses the value of a field, without the whitespace after it.
fn text<'i>(input: &mut &'i [u8]) -> ModalResult<&'i [u8]> {
    let text = take_till(0.., (b'\r', b'\n')).parse_next(input)?;
    Ok(text.trim_ascii_end())
}

/// Parses a target: visible ASCII.
fn target<'i>(input: &mut &'i [u8]) -> ModalResult<&'i [u8]> {
    take_while(1.., b'!'..=b'~').parse_next(input)
}

/// Parses a method, or the name of a field.
fn token<'i>(input: &mut &'i [u8]) -> ModalResult<&'i [u8]> {
    let signs = |b: u8| b.is_ascii_alphanumeric() || b"!#$%&'*+-.^_`|~".contains(&b);
    take_while(1.., signs).parse_next(input)
}
