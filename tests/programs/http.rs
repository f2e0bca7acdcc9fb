//! Heads of HTTP/1 requests (RFC 9112).

use std::alloc::Global;
use winnow::ascii::impls::{LineEnding, Space0};
use winnow::combinator::{preceded, repeat, separated_pair, terminated};
use winnow::error::ParseFault;
use winnow::prelude::*;
use winnow::stream::Pred;
use winnow::token::{one_of, take_till, take_while};
use winnow::{Func, FuncWith};

#[derive(Debug, PartialEq, Drop)]
struct Head<'i> {
    method: &'i [u8],
    target: &'i [u8],
    version: u8,
    fields: Vec<Field<'i>>,
}

#[derive(Debug, PartialEq, Drop)]
struct Field<'i> {
    name: &'i [u8],
    value: &'i [u8],
}

/// Parses a request line, fields, and the empty line after them.
fn read_head<'i>(alloc: Global, input: &mut &'i [u8]) -> ModalResult<Head<'i>> {
    let method = terminated(Func(token), b' ').parse_next(input)?;
    let target = terminated(Func(target), b' ').parse_next(input)?;
    let version = terminated(Func(version), LineEnding).parse_next(input)?;
    let fields = terminated(repeat(alloc, 0.., Func(read_field)), LineEnding).parse_next(input)?;
    Ok(Head {
        method,
        target,
        version,
        fields,
    })
}

/// Parses the minor version.
fn version(input: &mut &[u8]) -> ModalResult<u8> {
    let digit = preceded("HTTP/1.", one_of(b'0'..=b'9')).parse_next(input)?;
    Ok(digit - b'0')
}

/// Parses a field, and its line ending.
fn read_field<'i>(input: &mut &'i [u8]) -> ModalResult<Field<'i>> {
    let value = terminated(Func(text), LineEnding);
    let (name, value) = separated_pair(Func(token), (b':', Space0), value).parse_next(input)?;
    Ok(Field { name, value })
}

/// Parses the value of a field, without the whitespace after it.
fn text<'i>(input: &mut &'i [u8]) -> ModalResult<&'i [u8]> {
    let text = take_till(0.., (b'\r', b'\n')).parse_next(input)?;
    Ok(text.trim_ascii_end())
}

/// Parses a target: visible ASCII.
fn target<'i>(input: &mut &'i [u8]) -> ModalResult<&'i [u8]> {
    take_while(1.., b'!'..=b'~').parse_next(input)
}

/// Parses a method, or the name of a field.
fn token<'i>(input: &mut &'i [u8]) -> ModalResult<&'i [u8]> {
    let signs = Pred(|b: u8| b.is_ascii_alphanumeric() || b"!#$%&'*+-.^_`|~".contains(&b));
    take_while(1.., signs).parse_next(input)
}

// By RFC 9112, sections 2.3, 3 and 5.1.
#[test]
fn heads(rt: HostRuntime) {
    let text = b"GET /a?b HTTP/1.1\r\nHost: a.example\r\nAccept:*/* \t\r\n\r\n".as_slice();
    let Ok(head) = read(rt.alloc(), text) else {
        return assert!(rt; false);
    };
    assert_eq!(rt; (head.method, head.version), (b"GET".as_slice(), 1));
    assert_eq!(rt; head.target, b"/a?b".as_slice());
    let host = (b"Host".as_slice(), b"a.example".as_slice());
    let accept = (b"Accept".as_slice(), b"*/*".as_slice());
    assert!(rt; has_fields(&head, &[host, accept]));
    match read(rt.alloc(), b"GET / HTTP/1.0\n\n".as_slice()) {
        Ok(head) => assert!(rt; head.version == 0 && head.fields.is_empty()),
        Err(_) => assert!(rt; false),
    }
}

// The offsets are winnow's.
#[test]
fn errors_of_heads(rt: HostRuntime) {
    for (text, offset) in [
        (b"GET  / HTTP/1.0\r\n\r\n".as_slice(), 4),
        (b"GET / HTTP/2.0\r\n\r\n".as_slice(), 6),
        (b"GET / HTTP/1.1\r\nHost : a\r\n\r\n".as_slice(), 16),
        (b"GET / HTTP/1.1\r\nHost: a\r\n".as_slice(), 25),
        (b"GET / HTTP/1.1\r\n\r\nx".as_slice(), 18),
    ] {
        assert!(rt; matches!(read(rt.alloc(), text), Err(at) if at == offset));
    }
}

/// Returns whether a head has these fields.
fn has_fields(head: &Head<'_>, fields: &[(&[u8], &[u8])]) -> bool {
    let mut both = head.fields.iter().zip(fields);
    head.fields.len() == fields.len() && both.all(|(it, other)| (it.name, it.value) == *other)
}

/// Returns the head of a text, or the offset of the error.
fn read<'i>(alloc: Global, text: &'i [u8]) -> Result<Head<'i>, usize> {
    match FuncWith(alloc, read_head).parse(text) {
        Ok(head) => Ok(head),
        Err(ParseFault::Invalid(error)) => Err(error.offset()),
        Err(ParseFault::Incomplete(_)) => Err(text.len()),
    }
}
