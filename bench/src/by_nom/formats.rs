//! JSON values, CSV with quotes, and Redis replies.
use super::{count, In};
use crate::outcome::Outcome;
use nom::branch::alt;
use nom::bytes::complete::{is_not, tag, take, take_till};
use nom::bytes::streaming::{take as take_there, take_until};
use nom::character::complete::{anychar, char, digit1, multispace0, none_of, one_of};
use nom::character::streaming::{anychar as any_there, crlf, i64 as integer};
use nom::combinator::{map, map_opt, map_res, opt, recognize, value, verify};
use nom::error::{Error, ErrorKind};
use nom::multi::{count as counted, fold_many0, many0, separated_list0, separated_list1};
use nom::sequence::{delimited, pair, preceded, separated_pair, terminated, tuple};
use nom::{Err, IResult, Parser};
use std::str::from_utf8;

// ---- JSON, as in nom's own example, except that numbers are kept as text and members in a list

#[derive(Clone)]
enum Value {
    Null,
    Boolean(#[allow(dead_code)] bool),
    Number(String),
    Text(String),
    Array(Vec<Value>),
    Object(Vec<(String, Value)>),
}

fn hexadecimal(i: &str) -> IResult<&str, u16> {
    map_res(take(4usize), |digits| u16::from_str_radix(digits, 16))(i)
}

fn unicode_escape(i: &str) -> IResult<&str, char> {
    let alone = verify(hexadecimal, |unit| !(0xD800..0xE000).contains(unit));
    let two = verify(separated_pair(hexadecimal, tag("\\u"), hexadecimal), |(high, low)| {
        (0xD800..0xDC00).contains(high) && (0xDC00..0xE000).contains(low)
    });
    let joined = map(two, |(high, low)| {
        ((u32::from(high) - 0xD800) << 10) + (u32::from(low) - 0xDC00) + 0x10000
    });
    map_opt(alt((map(alone, u32::from), joined)), char::from_u32)(i)
}

fn character(i: &str) -> IResult<&str, char> {
    let (i, c) = none_of("\"")(i)?;
    if c != '\\' {
        return Ok((i, c));
    }
    let named = map_res(anychar, |c| {
        Ok(match c {
            '"' | '\\' | '/' => c,
            'b' => '\x08',
            'f' => '\x0C',
            'n' => '\n',
            'r' => '\r',
            't' => '\t',
            _ => return Err(()),
        })
    });
    alt((named, preceded(char('u'), unicode_escape)))(i)
}

fn string(i: &str) -> IResult<&str, String> {
    let characters = fold_many0(character, String::new, |mut all, c| {
        all.push(c);
        all
    });
    delimited(char('"'), characters, char('"'))(i)
}

fn spaced<'i, O>(
    parser: impl Parser<&'i str, O, Error<&'i str>>,
) -> impl FnMut(&'i str) -> IResult<&'i str, O> {
    delimited(multispace0, parser, multispace0)
}

fn number(i: &str) -> IResult<&str, String> {
    let fraction = opt(pair(char('.'), digit1));
    let exponent = opt(tuple((one_of("eE"), opt(one_of("+-")), digit1)));
    map(recognize(tuple((opt(char('-')), digit1, fraction, exponent))), str::to_string)(i)
}

fn array(i: &str) -> IResult<&str, Vec<Value>> {
    let items = spaced(separated_list0(spaced(char(',')), json_value));
    delimited(char('['), items, char(']'))(i)
}

fn object(i: &str) -> IResult<&str, Vec<(String, Value)>> {
    let member = separated_pair(string, spaced(char(':')), json_value);
    let members = spaced(separated_list0(spaced(char(',')), member));
    delimited(char('{'), members, char('}'))(i)
}

fn json_value(i: &str) -> IResult<&str, Value> {
    alt((
        value(Value::Null, tag("null")),
        map(alt((value(true, tag("true")), value(false, tag("false")))), Value::Boolean),
        map(string, Value::Text),
        map(number, Value::Number),
        map(array, Value::Array),
        map(object, Value::Object),
    ))(i)
}

fn member_bytes((name, value): &(String, Value)) -> u64 {
    let own = match value {
        Value::Text(text) | Value::Number(text) => text.len(),
        _ => 0,
    };
    (name.len() + own) as u64
}

pub fn json(s: &[u8]) -> Outcome {
    let Ok(text) = from_utf8(s) else { return Outcome::default() };
    let Ok(("", Value::Array(values))) = spaced(json_value)(text) else {
        return Outcome::default();
    };
    let sum = values.iter().map(|value| match value {
        Value::Object(members) => members.iter().map(member_bytes).sum(),
        _ => 0,
    });
    Outcome { count: values.len() as u64, sum: sum.sum(), left: 0 }
}

// ---- CSV with quotes

fn quoted(i: In<'_>) -> IResult<In<'_>, Vec<u8>> {
    let part = alt((is_not("\""), value(&b"\""[..], tag("\"\""))));
    let bytes = fold_many0(part, Vec::new, |mut all: Vec<u8>, part: &[u8]| {
        all.extend_from_slice(part);
        all
    });
    delimited(char('"'), bytes, char('"'))(i)
}

fn plain(i: In<'_>) -> IResult<In<'_>, Vec<u8>> {
    map(take_till(|b| matches!(b, b'"' | b',' | b'\r' | b'\n')), <[u8]>::to_vec)(i)
}

fn record(i: In<'_>) -> IResult<In<'_>, Vec<Vec<u8>>> {
    terminated(separated_list1(char(','), alt((quoted, plain))), char('\n'))(i)
}

pub fn csv(s: &[u8]) -> Outcome {
    let read: IResult<In<'_>, Vec<Vec<Vec<u8>>>> = many0(record)(s);
    read.map_or(Outcome::default(), |(rest, records)| {
        let mut told = count(records.len(), rest);
        told.sum = records.iter().flatten().map(|field| field.len() as u64).sum();
        told
    })
}

// ---- Redis replies

enum Reply<'i> {
    Simple(In<'i>),
    Error(In<'i>),
    Integer(#[allow(dead_code)] i64),
    Bulk(In<'i>),
    NullBulk,
    Array(Vec<Reply<'i>>),
    NullArray,
}

fn line(i: In<'_>) -> IResult<In<'_>, In<'_>> {
    terminated(take_until("\r\n"), crlf)(i)
}

/// Parses a size; -1 gives `None`.
fn size(i: In<'_>) -> IResult<In<'_>, Option<usize>> {
    map_res(terminated(integer, crlf), |size| match size {
        -1 => Ok(None),
        size => usize::try_from(size).map(Some),
    })(i)
}

fn reply(i: In<'_>) -> IResult<In<'_>, Reply<'_>> {
    let (i, mark) = any_there(i)?;
    match mark {
        '+' => map(line, Reply::Simple)(i),
        '-' => map(line, Reply::Error)(i),
        ':' => map(terminated(integer, crlf), Reply::Integer)(i),
        '$' => match size(i)? {
            (i, None) => Ok((i, Reply::NullBulk)),
            (i, Some(size)) => map(terminated(take_there(size), crlf), Reply::Bulk)(i),
        },
        '*' => match size(i)? {
            (i, None) => Ok((i, Reply::NullArray)),
            (i, Some(size)) => map(counted(reply, size), Reply::Array)(i),
        },
        _ => Err(Err::Error(Error::new(i, ErrorKind::Char))),
    }
}

fn bytes_of(reply: &Reply<'_>) -> u64 {
    match reply {
        Reply::Simple(bytes) | Reply::Error(bytes) | Reply::Bulk(bytes) => bytes.len() as u64,
        _ => 0,
    }
}

pub fn replies(s: &[u8]) -> Outcome {
    let (mut told, mut rest) = (Outcome::default(), s);
    while let Ok((left, reply)) = reply(rest) {
        told.count += 1;
        told.sum += match &reply {
            Reply::Array(elements) => elements.iter().map(bytes_of).sum(),
            _ => bytes_of(&reply),
        };
        rest = left;
    }
    told.left = rest.len() as u64;
    told
}
