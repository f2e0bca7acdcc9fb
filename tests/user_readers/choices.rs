//! Choices: one of some forms, by `alt`, by `opt`, or by a look at the next token.

use crate::forms::{read_number_or_word, read_signed, read_switch};
use test_support::rows::Modal;
use winnow::ascii::impls::Alpha1;
use winnow::ascii::{dec_int, dec_uint};
use winnow::combinator::{alt, delimited, opt, peek};
use winnow::error::{EmptyError, ErrMode};
use winnow::prelude::*;
use winnow::stream::{AsChar, Compare};
use winnow::token::impls::Any;
use winnow::token::{any, take_till};

/// How much is written to a log.
#[derive(Clone, Copy, Debug, PartialEq, Eq)]
pub enum Level {
    /// Errors.
    Error,
    /// Also warnings.
    Warning,
    /// All that happens.
    Trace,
}

/// Reads the name of a level, over any stream of text.
pub fn read_level<I, E>(input: &mut I) -> Result<Level, E>
where
    I: StreamIsPartial + Compare<&'static str>,
    E: ParserError<I>,
{
    alt((
        "error".value(Level::Error),
        "warning".value(Level::Warning),
        "trace".value(Level::Trace),
    ))
    .parse_next(input)
}

/// How long something lasts.
#[derive(Clone, Copy, Debug, PartialEq, Eq)]
pub enum Duration {
    /// So many seconds.
    Seconds(u32),
    /// So many minutes.
    Minutes(u32),
}

/// Reads a duration, as `90s` or `2m`.
pub fn read_duration(input: &mut &str) -> Result<Duration, ErrMode<EmptyError>> {
    let count = dec_uint(input)?;
    match any(input)? {
        's' => Ok(Duration::Seconds(count)),
        'm' => Ok(Duration::Minutes(count)),
        _ => Err(ErrMode::from_input(input)),
    }
}

/// Reads a user's name, over any stream of text; returns `None` for `-`.
pub fn read_user<I, E>(input: &mut I) -> Result<Option<I::Slice>, E>
where
    I: StreamIsPartial + Compare<&'static str>,
    I::Token: AsChar,
    I::Slice: Clone,
    E: ParserError<I>,
{
    alt(("-".value(None), Alpha1.map(Some))).parse_next(input)
}

/// A value of a setting.
#[derive(Clone, Copy, Debug, PartialEq, Eq)]
pub enum Value<'i> {
    /// A number.
    Number(i64),
    /// A text.
    Text(&'i str),
}

/// Reads a text in quotes, over any stream of text.
fn read_quoted<I, E>(input: &mut I) -> Result<I::Slice, E>
where
    I: StreamIsPartial + Compare<char>,
    I::Token: AsChar,
    E: ParserError<I>,
{
    delimited('"', take_till(0.., '"'), '"').parse_next(input)
}

/// Reads a value: a text in quotes, or a number.
pub fn read_value<'i>(input: &mut &'i str) -> Result<Value<'i>, ErrMode<EmptyError>> {
    match peek(Any).parse_next(input)? {
        '"' => {
            let text = read_quoted(input)?;
            Ok(Value::Text(text))
        }
        _ => {
            let number = dec_int(input)?;
            Ok(Value::Number(number))
        }
    }
}

/// Reads a port after a colon; returns `None` if there is no colon.
pub fn read_port(input: &mut &str) -> Result<Option<u16>, ErrMode<EmptyError>> {
    let colon: Option<char> = opt(':').parse_next(input)?;
    match colon {
        Some(_) => {
            let port = dec_uint(input)?;
            Ok(Some(port))
        }
        None => Ok(None),
    }
}

#[test]
fn names(rt: HostRuntime) {
    let level = read_level::<&str, Modal>(&mut "warning: low").ok();
    assert!(rt; level == Some(Level::Warning));
    assert!(rt; read_level::<&str, Modal>(&mut "info").is_err());
    assert_eq!(rt; read_switch(&mut b"yes".as_slice()).ok(), Some(true));
    assert_eq!(rt; read_switch(&mut b"off".as_slice()).ok(), Some(false));
    assert!(rt; read_switch(&mut b"maybe".as_slice()).is_err());
    assert_eq!(rt; read_user::<&str, Modal>(&mut "- 1").ok(), Some(None));
    assert_eq!(rt; read_user::<&str, Modal>(&mut "frank 1").ok(), Some(Some("frank")));
    assert!(rt; read_user::<&str, Modal>(&mut "1").is_err());
    assert_eq!(rt; read_number_or_word(&mut "12a").ok(), Some(("12", true)));
    assert_eq!(rt; read_number_or_word(&mut "ab1").ok(), Some(("ab", false)));
    assert!(rt; read_number_or_word(&mut "-").is_err());
}

#[test]
fn values(rt: HostRuntime) {
    assert!(rt; read_duration(&mut "90s").ok() == Some(Duration::Seconds(90)));
    assert!(rt; read_duration(&mut "2m").ok() == Some(Duration::Minutes(2)));
    assert!(rt; read_duration(&mut "2h").is_err());
    assert!(rt; read_value(&mut "-12").ok() == Some(Value::Number(-12)));
    assert!(rt; read_value(&mut "\"two words\"").ok() == Some(Value::Text("two words")));
    assert!(rt; read_value(&mut "two").is_err());
    assert_eq!(rt; read_signed(&mut "-7").ok(), Some((true, 7)));
    assert_eq!(rt; read_signed(&mut "7").ok(), Some((false, 7)));
    assert!(rt; read_signed(&mut "+7").is_err());
    assert_eq!(rt; read_port(&mut ":8080/").ok(), Some(Some(8080)));
    assert_eq!(rt; read_port(&mut "/").ok(), Some(None));
    assert!(rt; read_port(&mut ":x").is_err());
}
