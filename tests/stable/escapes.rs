//! Text with escapes, on every prefix of a text, compared with each longer prefix.
use crate::settling::{Bytes, Text, settles_at};
use std::alloc::Global;
use std::fmt::Debug;
use std::process::Abort;
use stream_errors::control::ControlError;
use stream_sets::as_char::AsChar;
use test_support::rows::Modal;
use test_support::texts::OfText;
use winnow_ascii::ascii::impls::Alpha1;
use winnow_core::parser::Parser;
use winnow_escapes::ascii;
use winnow_escapes::ascii::impls::{Escaped, TakeEscaped};
use winnow_token::token::impls::{Any, NoneOf, OneOf};
use winnow_token::token::{none_of, one_of};

/// Letters and escapes up to a semicolon, which the first nine beginnings do not have.
const ESCAPED: &str = "ab\\ncd\\\\;e\\x";

/// Checks every prefix with `settles_at`; `want` of them must return `Incomplete`.
fn asks<I, O, P>(rt: &impl Abort, name: &str, mut parser: P, want: usize)
where
    I: OfText,
    O: PartialEq + Debug + Drop,
    P: Parser<I, O, Modal> + Drop,
{
    let mut asking = 0;
    for count in 0..=ESCAPED.len() {
        if settles_at::<I, O, P>(rt, name, &mut parser, ESCAPED, count) {
            asking += 1;
        }
    }
    assert_eq!(rt; asking, want, "{name}: beginnings that ask for more");
}

/// Such a text with a control that the next token settles.
fn behind<I, K, D>(rt: &impl Abort, name: &str, control: K, want: usize)
where
    I: OfText,
    I::Token: AsChar,
    I::Slice: PartialEq + Debug,
    K: Parser<I, D, ControlError> + Drop,
    D: Drop,
{
    let text: TakeEscaped<Alpha1, K, Any, I, I::Slice, D, I::Token, Modal> =
        ascii::take_escaped(Alpha1, control, Any);
    asks::<I, I::Slice, _>(rt, name, text, want);
}

/// The controls that are settled so, but for a byte and a character.
fn controls<I: OfText>(rt: &impl Abort)
where
    I::Token: AsChar + Copy,
    I::Slice: PartialEq + Debug,
{
    behind::<I, _, I::Token>(rt, "take_escaped(alpha1, any, any)", Any, 13);
    let control: OneOf<char, I, ControlError> = one_of('\\');
    behind::<I, _, I::Token>(rt, "take_escaped(alpha1, one_of, any)", control, 9);
    let control: NoneOf<char, I, ControlError> = none_of(';');
    behind::<I, _, I::Token>(rt, "take_escaped(alpha1, none_of, any)", control, 9);
}

#[test]
fn take_escaped_is_settled(rt: HostRuntime) {
    behind::<Text, _, char>(&rt, "take_escaped(alpha1, a character, any)", '\\', 9);
    behind::<Bytes, _, u8>(&rt, "take_escaped(alpha1, a byte, any)", b'\\', 9);
    controls::<Text>(&rt);
    controls::<Bytes>(&rt);
}

#[test]
fn escaped_is_settled(rt: HostRuntime) {
    let text: Escaped<Alpha1, char, Any, Text, &str, char, char, usize, Modal, Global> =
        ascii::escaped(rt.alloc(), Alpha1, '\\', Any);
    asks::<Text, usize, _>(&rt, "escaped(alpha1, a character, any)", text, 9);
    let text: Escaped<Alpha1, u8, Any, Bytes, &[u8], u8, u8, usize, Modal, Global> =
        ascii::escaped(rt.alloc(), Alpha1, b'\\', Any);
    asks::<Bytes, usize, _>(&rt, "escaped(alpha1, a byte, any)", text, 9);
}
