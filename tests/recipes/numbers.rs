//! Numbers, with whitespace, signs and bounds.

use test_support::rows::Modal;
use example_callers::percentages::read_percentage;
use winnow::ascii::impls::{DecInt, DecUint, Space0};
use winnow::combinator::delimited;
use winnow::error::{EmptyError, ErrMode};
use winnow::prelude::*;
use winnow::stream::{AsBStr, AsChar, SlicesAsBytes};

/// Reads a number with spaces round it, over any stream of text.
pub fn read_spaced<I, E>(input: &mut I) -> Result<u32, E>
where
    I: StreamIsPartial + SlicesAsBytes,
    I::Token: AsChar,
    I::Slice: AsBStr,
    E: ParserError<I>,
{
    delimited(Space0, DecUint, Space0).parse_next(input)
}

/// Reads a temperature from -40 to 60.
pub fn read_temperature(input: &mut &str) -> Result<i16, ErrMode<EmptyError>> {
    DecInt
        .verify(|degrees: &i16| -40 <= *degrees && *degrees <= 60)
        .parse_next(input)
}

#[test]
fn spaces(rt: HostRuntime) {
    let mut input = "  12 \t;";
    assert_eq!(rt; read_spaced::<&str, Modal>(&mut input).ok(), Some(12));
    assert_eq!(rt; input, ";");
}

#[test]
fn degrees(rt: HostRuntime) {
    for (text, degrees) in [("-40", -40), ("60", 60), ("+7", 7)] {
        let mut input = text;
        assert_eq!(rt; read_temperature(&mut input).ok(), Some(degrees));
    }
    for text in ["61", "-41", "40000", "x"] {
        let mut input = text;
        assert!(rt; read_temperature(&mut input).is_err());
    }
}

#[test]
fn percentages(rt: HostRuntime) {
    assert_eq!(rt; read_percentage(&mut "100%").ok(), Some(100));
    assert!(rt; read_percentage(&mut "101%").is_err());
    assert!(rt; read_percentage(&mut "1000%").is_err());
}
