//! Comments and names.

use test_support::rows::Modal;
use example_callers::identifiers::read_identifier;
use winnow::ascii::impls::TillLineEnding;
use winnow::combinator::{delimited, preceded};
use winnow::prelude::*;
use winnow::stream::{Compare, FindSlice};
use winnow::token::take_until;

/// Reads a comment up to the end of its line, over any stream of text.
pub fn read_line_comment<I, E>(input: &mut I) -> Result<I::Slice, E>
where
    I: StreamIsPartial + Compare<&'static str> + FindSlice<(char, char)>,
    E: ParserError<I>,
{
    preceded("//", TillLineEnding).parse_next(input)
}

/// Reads a comment up to its end mark, over any stream of text.
pub fn read_block_comment<I, E>(input: &mut I) -> Result<I::Slice, E>
where
    I: StreamIsPartial + Compare<&'static str> + FindSlice<&'static str>,
    E: ParserError<I>,
{
    delimited("/*", take_until(0.., "*/"), "*/").parse_next(input)
}

#[test]
fn comments(rt: HostRuntime) {
    let mut input = "// said\nrest";
    assert_eq!(rt; read_line_comment::<&str, Modal>(&mut input).ok(), Some(" said"));
    assert_eq!(rt; input, "\nrest");
    let mut input = "/* a * b */ c";
    assert_eq!(rt; read_block_comment::<&str, Modal>(&mut input).ok(), Some(" a * b "));
    assert_eq!(rt; input, " c");
    assert!(rt; read_block_comment::<&str, Modal>(&mut "/* a").is_err());
}

#[test]
fn identifiers(rt: HostRuntime) {
    let mut input = b"_a1-b".as_slice();
    assert_eq!(rt; read_identifier(&mut input).ok(), Some(b"_a1".as_slice()));
    assert_eq!(rt; input, b"-b".as_slice());
    assert!(rt; read_identifier(&mut b"1a".as_slice()).is_err());
}
