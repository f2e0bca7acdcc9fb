//! Tokens and sets; text, numbers and escapes.
use winnow::ascii::impls::{Alpha1, DecUint, HexUintParser};
use winnow::ascii::{HexUint, Uint, escaped, take_escaped};
use winnow::combinator::impls::Empty;
use winnow::error::{ControlError, EmptyError, ErrMode, Needed};
use winnow::prelude::*;
use winnow::stream::{AsBStr, AsChar, Partial, Pred, SlicesAsBytes};
use winnow::token::{one_of, take_until, take_while};

type Fails = ErrMode<EmptyError>;

#[test]
fn closures_are_wrapped(rt: HostRuntime) {
    let mut input = "12a";
    let set = Pred(|c: char| c.is_ascii_digit());
    let read: Result<&str, Fails> = take_while(1.., set).parse_next(&mut input);
    assert_eq!(rt; read.ok(), Some("12"));
}

#[test]
fn tokens_are_literals(rt: HostRuntime) {
    let mut input = Partial::new("");
    let read: Result<char, Fails> = 'a'.parse_next(&mut input);
    assert_eq!(rt; read, Err(ErrMode::Incomplete(Needed::Unknown)));
}

#[test]
fn take_until_searches_once(rt: HostRuntime) {
    let mut input = "ax..x";
    let read: Result<&str, Fails> = take_until(2.., 'x').parse_next(&mut input);
    assert!(rt; matches!(read, Err(ErrMode::Backtrack(_))));
}

#[test]
fn hex_digits_of_partial_input(rt: HostRuntime) {
    let mut input = Partial::new("FF");
    let read: Result<u8, Fails> = HexUintParser.parse_next(&mut input);
    assert!(rt; matches!(read, Err(ErrMode::Incomplete(_))));
    let mut input = "FF";
    let read: Result<u8, Fails> = HexUintParser.parse_next(&mut input);
    assert_eq!(rt; read.ok(), Some(255));
}

#[test]
fn numbers_are_converted(rt: HostRuntime) {
    assert_eq!(rt; <u8 as Uint>::try_from_number(255), Some(255));
    assert_eq!(rt; <u8 as Uint>::try_from_number(256), None);
}

#[test]
fn controls_have_their_error(rt: HostRuntime) {
    let mut control = '\\';
    let read: Result<char, ControlError> = control.parse_next(&mut "a");
    assert_eq!(rt; read, Err(ControlError::Invalid));
}

#[test]
fn escapes_need_progress(rt: HostRuntime) {
    let mut input = "ab;";
    let read: Result<&str, Fails> = take_escaped(Alpha1, Empty, Empty).parse_next(&mut input);
    assert!(rt; matches!(read, Err(ErrMode::Cut(_))));
    let mut input = "a\\n";
    let read: Result<&str, Fails> =
        take_escaped(Alpha1, '\\', one_of(['n'])).parse_next(&mut input);
    assert_eq!(rt; read.ok(), Some("a\\n"));
}

#[test]
fn failed_controls_consume(rt: HostRuntime) {
    let mut input = "a\\n";
    let mut text = escaped(rt.alloc(), Alpha1, ('\\', '{'), 'x');
    let read: Result<String, Fails> = text.parse_next(&mut input);
    assert!(rt; matches!(read, Ok(text) if text.as_str() == "a"));
    assert_eq!(rt; input, "n");
}

fn number<I, E>(input: &mut I) -> Result<u32, E>
where
    I: StreamIsPartial + SlicesAsBytes,
    I::Token: AsChar,
    I::Slice: AsBStr,
    E: ParserError<I>,
{
    DecUint.parse_next(input)
}

#[test]
fn numbers_need_bytes(rt: HostRuntime) {
    assert_eq!(rt; number::<&str, Fails>(&mut "12;").ok(), Some(12));
    assert_eq!(rt; number::<&[u8], Fails>(&mut b"12;".as_slice()).ok(), Some(12));
}

#[test]
fn nibbles_are_pushed(rt: HostRuntime) {
    assert_eq!(rt; u8::default().push_nibble(0xA).push_nibble(0xB), 0xAB);
}

#[test]
fn floats_are_texts(rt: HostRuntime) {
    let mut input = "2.5;";
    let number = take_while(1.., ('0'..='9', '.'));
    let read: Result<f64, Fails> = number.parse_to().parse_next(&mut input);
    assert!(rt; matches!(read, Ok(number) if number == 2.5));
}
