//! JSON texts (RFC 8259) as values.

use std::alloc::Global;
use std::collections::BTreeMap;
use winnow::ascii::escaped;
use winnow::ascii::impls::{Digit0, Digit1, Multispace0};
use winnow::combinator::{
    alt, cut_err, delimited, fail, opt, peek, preceded, separated, separated_pair,
};
use winnow::error::{ContextError, ErrMode, ParseFault};
use winnow::prelude::*;
use winnow::token::impls::Any;
use winnow::token::{one_of, take_till, take_while};
use winnow::{Func, FuncWith};

#[derive(Debug, PartialEq, Drop)]
enum Json {
    Null,
    Bool(bool),
    Number(f64),
    Text(String),
    List(Vec<Json>),
    Map(BTreeMap<String, Json>),
}

#[derive(Clone, Copy, Debug)]
enum Expected {
    Value,
    EndOfList,
    EndOfMap,
    Colon,
    EndOfText,
}

type ModalResult<O> = Result<O, ErrMode<ContextError<Expected>>>;

/// Parses a value, and the whitespace around it.
#[cycle(json)]
fn value((alloc, depth): (Global, usize), input: &mut &str) -> ModalResult<Json> {
    delimited(Multispace0, FuncWith((alloc, depth), bare), Multispace0)
        .context(alloc, Expected::Value)
        .parse_next(input)
}

/// Parses a value.
#[cycle(json)]
fn bare((alloc, depth): (Global, usize), input: &mut &str) -> ModalResult<Json> {
    let Some(below) = depth.checked_sub(1) else {
        return fail(input);
    };
    match peek(Any).parse_next(input)? {
        'n' => "null".map(|_| Json::Null).parse_next(input),
        't' => "true".map(|_| Json::Bool(true)).parse_next(input),
        'f' => "false".map(|_| Json::Bool(false)).parse_next(input),
        '"' => string(alloc, input).map(Json::Text),
        '[' => list((alloc, below), input).map(Json::List),
        '{' => map((alloc, below), input).map(Json::Map),
        _ => number(input).map(Json::Number),
    }
}

/// Parses the items of a list.
#[cycle(json)]
fn list((alloc, depth): (Global, usize), input: &mut &str) -> ModalResult<Vec<Json>> {
    let end = cut_err((Multispace0, ']').context(alloc, Expected::EndOfList));
    let items = separated(alloc, 0.., FuncWith((alloc, depth), value), ',');
    delimited('[', items, end).parse_next(input)
}

/// Parses the members of a map. Of equal names, the last one counts.
#[cycle(json)]
fn map((alloc, depth): (Global, usize), input: &mut &str) -> ModalResult<BTreeMap<String, Json>> {
    let end = cut_err((Multispace0, '}').context(alloc, Expected::EndOfMap));
    let members = separated(alloc, 0.., FuncWith((alloc, depth), member), ',');
    delimited('{', members, end).parse_next(input)
}

/// Parses a name, a colon and a value.
#[cycle(json)]
fn member((alloc, depth): (Global, usize), input: &mut &str) -> ModalResult<(String, Json)> {
    let name = delimited(Multispace0, FuncWith(alloc, string), Multispace0);
    let colon = cut_err(':'.context(alloc, Expected::Colon));
    separated_pair(name, colon, cut_err(FuncWith((alloc, depth), value))).parse_next(input)
}

/// Parses a text in quotes.
fn string(alloc: Global, input: &mut &str) -> ModalResult<String> {
    let plain = take_till(1.., ('"', '\\', '\0'..='\x1f'));
    let end = cut_err('"'.context(alloc, Expected::EndOfText));
    delimited('"', escaped(alloc, plain, '\\', Func(escape)), end).parse_next(input)
}

/// Parses an escape after its backslash.
fn escape(input: &mut &str) -> ModalResult<char> {
    alt((
        one_of(['"', '\\', '/']),
        'b'.value('\u{8}'),
        'f'.value('\u{c}'),
        'n'.value('\n'),
        'r'.value('\r'),
        't'.value('\t'),
        preceded('u', Func(character)),
    ))
    .parse_next(input)
}

/// Parses a character of one or two code units.
fn character(input: &mut &str) -> ModalResult<char> {
    let mut code = unit(input)?;
    if (0xd800..0xdc00).contains(&code) {
        let mut low = preceded("\\u", Func(unit)).verify(|low| (0xdc00..0xe000).contains(low));
        code = 0x10000 + ((code - 0xd800) << 10) + (low.parse_next(input)? - 0xdc00);
    }
    char::from_u32(code).ok_or_else(|| ErrMode::from_input(input))
}

/// Parses a code unit of UTF-16: four hexadecimal digits.
fn unit(input: &mut &str) -> ModalResult<u32> {
    take_while(4, ('0'..='9', 'a'..='f', 'A'..='F'))
        .try_map(|digits: &str| u32::from_str_radix(digits, 16))
        .parse_next(input)
}

/// Parses a number.
fn number(input: &mut &str) -> ModalResult<f64> {
    let whole = alt(("0", (one_of('1'..='9'), Digit0).take()));
    let exponent = (one_of(['e', 'E']), opt(one_of(['+', '-'])), Digit1);
    (opt('-'), whole, opt(('.', Digit1)), opt(exponent))
        .take()
        .parse_to()
        .parse_next(input)
}

// As Python's `json.loads` reads it.
#[test]
fn values(rt: HostRuntime) {
    let text = " {\"a\": [true, null, -2.5e1], \"b\": {}, \"a\": [ ] } ";
    let Ok(Json::Map(map)) = read(rt.alloc(), text) else {
        return assert!(rt; false);
    };
    assert_eq!(rt; map.len(), 2);
    assert!(rt; matches!(map.get("a"), Some(Json::List(list)) if list.is_empty()));
    assert!(rt; matches!(map.get("b"), Some(Json::Map(map)) if map.is_empty()));
    let Ok(Json::List(list)) = read(rt.alloc(), "[true,false ,null, -2.5e1]") else {
        return assert!(rt; false);
    };
    match list.as_slice() {
        [
            Json::Bool(true),
            Json::Bool(false),
            Json::Null,
            Json::Number(number),
        ] => {
            assert!(rt; *number == -25.0);
        }
        _ => assert!(rt; false),
    }
}

// As Python's `json.loads` reads them.
#[test]
fn texts(rt: HostRuntime) {
    for (text, value) in [
        ("\"\"", ""),
        ("\"\\ud83d\\ude00 \\u00e9\\n\"", "\u{1f600} \u{e9}\n"),
        ("\"\\\"\\\\\\/\\b\\f\\r\\t\"", "\"\\/\u{8}\u{c}\r\t"),
    ] {
        assert!(rt; matches!(read(rt.alloc(), text), Ok(Json::Text(it)) if it.as_str() == value));
    }
}

// Invalid by RFC 8259; the offsets are winnow's.
#[test]
fn errors_of_values(rt: HostRuntime) {
    for (text, offset) in [
        ("", 0),
        ("tru", 0),
        ("[1,", 2),
        ("[1,]", 2),
        ("[1 2]", 3),
        ("[1]x", 3),
        ("{\"a\" 1}", 5),
        ("{\"a\":}", 5),
        ("\"a", 2),
        ("\"\\x\"", 2),
        ("\"\\ud800\"", 7),
    ] {
        assert_eq!(rt; read(rt.alloc(), text).err(), Some(offset));
    }
    for text in ["01", "+1", "1e", "inf", "[[[[[[[[[1]]]]]]]]]"] {
        assert!(rt; read(rt.alloc(), text).is_err());
    }
}

/// Returns the value of a text, or the offset of the error.
fn read(alloc: Global, text: &str) -> Result<Json, usize> {
    match FuncWith((alloc, 8), value).parse(text) {
        Ok(value) => Ok(value),
        Err(ParseFault::Invalid(error)) => Err(error.offset()),
        Err(ParseFault::Incomplete(_)) => Err(text.len()),
    }
}
