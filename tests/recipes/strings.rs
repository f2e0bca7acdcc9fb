//! Texts with escapes, as written and unescaped.

use examples::strings::{as_it_stands, unescaped};
use std::alloc::Global;
use winnow::ascii::escaped;
use winnow::combinator::{alt, delimited};
use winnow::error::{EmptyError, ErrMode};
use winnow::prelude::*;
use winnow::token::take_till;

/// Reads a text in quotes into a `String`, with the escapes `\"`, `\\` and `\n`.
fn read_string(alloc: Global, input: &mut &str) -> Result<String, ErrMode<EmptyError>> {
    let normal = take_till(1.., ('"', '\\'));
    let escape = alt(("\"".value("\""), "\\".value("\\"), "n".value("\n")));
    delimited('"', escaped(alloc, normal, '\\', escape), '"').parse_next(input)
}

#[test]
fn escapes(rt: HostRuntime) {
    let mut input = "say\\\"so\\\\\\\";";
    assert_eq!(rt; as_it_stands(&mut input).ok(), Some("say\\\"so\\\\\\\""));
    assert_eq!(rt; input, ";");
    assert!(rt; as_it_stands(&mut "say\\n").is_err());
    let mut input = "say\\\"so\\\\\\\";";
    let text = unescaped(rt.alloc(), &mut input);
    assert!(rt; matches!(&text, Ok(text) if text.as_str() == "say\"so\\\""));
    assert_eq!(rt; input, ";");
    assert!(rt; unescaped(rt.alloc(), &mut "say\\n").is_err());
}

// As Python's `json.loads` reads these texts.
#[test]
fn strings_in_quotes(rt: HostRuntime) {
    let mut input = "\"two\\nlines, \\\"q\\\" \\\\\";";
    let text = read_string(rt.alloc(), &mut input);
    assert!(rt; matches!(&text, Ok(text) if text.as_str() == "two\nlines, \"q\" \\"));
    assert_eq!(rt; input, ";");
    let empty = read_string(rt.alloc(), &mut "\"\"");
    assert!(rt; matches!(&empty, Ok(text) if text.is_empty()));
    assert!(rt; read_string(rt.alloc(), &mut "\"a").is_err());
    assert!(rt; read_string(rt.alloc(), &mut "\"\\x\"").is_err());
}
