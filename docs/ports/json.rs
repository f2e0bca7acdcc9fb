//! JSON texts (RFC 8259) as values.

use std::collections::BTreeMap;
use winnow::ascii::{escaped, float, multispace0};
use winnow::combinator::{
    alt, cut_err, delimited, dispatch, peek, preceded, separated, separated_pair,
};
use winnow::error::{ErrMode, ParserError, StrContext};
use winnow::prelude::*;
use winnow::token::{any, one_of, take_till, take_while};

#[derive(Clone, Debug, PartialEq)]
enum Json {
    Null,
    Bool(bool),
    Number(f64),
    Text(String),
    List(Vec<Json>),
    Map(BTreeMap<String, Json>),
}

/// Parses a value, and the whitespace around it.
fn value(input: &mut &str) -> ModalResult<Json> {
    delimited(multispace0, bare, multispace0)
        .context(StrContext::Label("value"))
        .parse_next(input)
}

/// Parses a value.
fn bare(input: &mut &str) -> ModalResult<Json> {
    dispatch! { peek(any);
        'n' => "null".value(Json::Null),
        't' => "true".value(Json::Bool(true)),
        'f' => "false".value(Json::Bool(false)),
        '"' => string.map(Json::Text),
        '[' => list.map(Json::List),
        '{' => map.map(Json::Map),
        _ => float.map(Json::Number),
    }
    .parse_next(input)
}

/// Parses the items of a list.
fn list(input: &mut &str) -> ModalResult<Vec<Json>> {
    let end = cut_err((multispace0, ']').context(StrContext::Label("end of list")));
    let items = separated(0.., value, ',');
    delimited('[', items, end).parse_next(input)
}

/// Parses the members of a map. Of equal names, the last one counts.
fn map(input: &mut &str) -> ModalResult<BTreeMap<String, Json>> {
    let end = cut_err((multispace0, '}').context(StrContext::Label("end of map")));
    let members = separated(0.., member, ',');
    delimited('{', members, end).parse_next(input)
}

/// Parses a name, a colon and a value.
fn member(input: &mut &str) -> ModalResult<(String, Json)> {
    let name = delimited(multispace0, string, multispace0);
    let colon = cut_err(':'.context(StrContext::Label("colon")));
    separated_pair(name, colon, cut_err(value)).parse_next(input)
}

/// Parses a text in quotes.
fn string(input: &mut &str) -> ModalResult<String> {
    let plain = take_till(1.., ('"', '\\', '\0'..='\x1f'));
    let end = cut_err('"'.context(StrContext::Label("end of text")));
    delimited('"', escaped(plain, '\\', escape), end).parse_next(input)
}

/// Parses an escape after its backslash.
fn escape(input: &mut &str) -> ModalResult<char> {
    alt((
        one_of(['"', '\\', '/']),
        'b'.value('\u{8}'),
        'f'.value('\u{c}'),
        'n'.value('\n'),
        'r'.value('\r'),
        't'.value('\t'),
        preceded('u', character),
    ))
    .parse_next(input)
}

/// Parses a character of one or two code units.
fn character(input: &mut &str) -> ModalResult<char> {
    let mut code = unit(input)?;
    if (0xd800..0xdc00).contains(&code) {
        let mut low = preceded("\\u", unit).verify(|low| (0xdc00..0xe000).contains(low));
        code = 0x10000 + ((code - 0xd800) << 10) + (low.parse_next(input)? - 0xdc00);
    }
    char::from_u32(code).ok_or_else(|| ErrMode::from_input(input))
}

/// Parses a code unit of UTF-16: four hexadecimal digits.
fn unit(input: &mut &str) -> ModalResult<u32> {
    take_while(4, ('0'..='9', 'a'..='f', 'A'..='F'))
        .try_map(|digits: &str| u32::from_str_radix(digits, 16))
        .parse_next(input)
}
