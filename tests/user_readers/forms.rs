//! Readers of forms that occur again in the files next to it, most of them for one stream here.

use std::alloc::Allocator;
use winnow::ascii::impls::{Alpha1, Crlf, DecUint, Digit1, Space1};
use winnow::binary::impls::U8;
use winnow::combinator::{alt, delimited, opt, repeat, separated, terminated};
use winnow::error::{EmptyError, ErrMode};
use winnow::prelude::*;
use winnow::token::{take, take_till, take_until, take_while};

/// Reads a switch, as `on` or `no`.
pub fn read_switch(input: &mut &[u8]) -> Result<bool, ErrMode<EmptyError>> {
    let on = alt((b"on".as_slice(), b"yes".as_slice())).value(true);
    let off = alt((b"off".as_slice(), b"no".as_slice())).value(false);
    alt((on, off)).parse_next(input)
}

/// Reads a number after an optional sign.
pub fn read_signed(input: &mut &str) -> Result<(bool, u32), ErrMode<EmptyError>> {
    (opt('-'), DecUint)
        .map(|(sign, number): (Option<char>, u32)| (sign.is_some(), number))
        .parse_next(input)
}

/// Reads digits or a word, and says whether it was digits.
pub fn read_number_or_word<'i>(
    input: &mut &'i str,
) -> Result<(&'i str, bool), ErrMode<EmptyError>> {
    alt((
        Digit1.map(|digits| (digits, true)),
        Alpha1.map(|word| (word, false)),
    ))
    .parse_next(input)
}

/// Reads words with spaces between them.
pub fn read_words<'i, A: Allocator + Copy>(
    alloc: A,
    input: &mut &'i str,
) -> Result<Vec<&'i str, A>, ErrMode<EmptyError>> {
    separated(alloc, 0.., Alpha1, Space1).parse_next(input)
}

/// How many lines begin the input.
pub fn count_lines<A: Allocator + Copy>(
    alloc: A,
    input: &mut &str,
) -> Result<usize, ErrMode<EmptyError>> {
    repeat(alloc, 0.., terminated(Alpha1, '\n')).parse_next(input)
}

/// Someone who can be written to.
#[derive(Clone, Copy, Debug, PartialEq, Eq)]
pub struct Person<'i> {
    /// The name.
    pub name: &'i str,
    /// The address of the mail.
    pub mail: &'i str,
}

/// Reads a name and an address, as `Ada Lovelace <ada@example.org>`.
pub fn read_person<'i>(input: &mut &'i str) -> Result<Person<'i>, ErrMode<EmptyError>> {
    let name = take_until(1.., " <").parse_next(input)?;
    let mail = delimited(" <", take_till(1.., '>'), '>').parse_next(input)?;
    Ok(Person { name, mail })
}

/// The first line of a request of HTTP/1.1.
#[derive(Clone, Copy, Debug, PartialEq, Eq)]
pub struct Request<'i> {
    /// What to do.
    pub method: &'i [u8],
    /// With what.
    pub target: &'i [u8],
}

/// Reads the target of a request, between two spaces.
fn read_target<'i>(input: &mut &'i [u8]) -> Result<&'i [u8], ErrMode<EmptyError>> {
    delimited(b' ', take_till(1.., b' '), b' ').parse_next(input)
}

/// Reads the protocol, with the end of its line.
fn read_protocol(input: &mut &[u8]) -> Result<(), ErrMode<EmptyError>> {
    (b"HTTP/1.1".as_slice(), Crlf).void().parse_next(input)
}

/// Reads the first line of a request, as `GET /index HTTP/1.1`, with the end of its line.
pub fn read_request<'i>(input: &mut &'i [u8]) -> Result<Request<'i>, ErrMode<EmptyError>> {
    let method = take_while(1.., b'A'..=b'Z').parse_next(input)?;
    let target = read_target(input)?;
    read_protocol(input)?;
    Ok(Request { method, target })
}

/// Reads a name that has its length in front of it.
pub fn read_name<'i>(input: &mut &'i [u8]) -> Result<&'i [u8], ErrMode<EmptyError>> {
    let length: u8 = U8.parse_next(input)?;
    take(length).parse_next(input)
}
