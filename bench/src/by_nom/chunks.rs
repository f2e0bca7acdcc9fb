//! Input that arrives in chunks: each chunk parses the item from its start again.
use super::In;
use crate::outcome::Outcome;
use nom::branch::alt;
use nom::bytes::streaming::{tag, take_while, take_while1};
use nom::character::streaming::{char, u16 as number};
use nom::combinator::{value, verify};
use nom::multi::{length_data, many0_count};
use nom::sequence::{delimited, terminated, tuple};
use nom::{Err, IResult};

/// Counts items in input that arrives in chunks.
fn items(chunk: usize, text: &[u8], item: impl Fn(In<'_>) -> IResult<In<'_>, ()>) -> Outcome {
    let (mut told, mut start, mut end) = (Outcome::default(), 0, 0);
    loop {
        match item(&text[start..end]) {
            Ok((rest, ())) => {
                let length = end - start - rest.len();
                told.count += 1;
                told.sum = told.sum.wrapping_mul(3).wrapping_add(length as u64);
                start += length;
            }
            Err(Err::Incomplete(_)) if end < text.len() => {
                end = end.saturating_add(chunk).min(text.len());
            }
            Err(_) => {
                told.left = (text.len() - start) as u64;
                return told;
            }
        }
    }
}

fn is_name(byte: u8) -> bool {
    byte.is_ascii_alphanumeric() || byte == b'-'
}

fn header(i: In<'_>) -> IResult<In<'_>, ()> {
    let is_value = |byte: u8| (byte >= b' ' && byte != 127) || byte == b'\t';
    value((), tuple((take_while1(is_name), char(':'), take_while(is_value), tag("\r\n"))))(i)
}

fn head(i: In<'_>) -> IResult<In<'_>, ()> {
    let is_visible = |byte: u8| byte.is_ascii_graphic();
    let target = delimited(char(' '), take_while1(is_visible), tag(" HTTP/1.1\r\n"));
    value((), tuple((take_while1(is_name), target, many0_count(header), tag("\r\n"))))(i)
}

fn frame(i: In<'_>) -> IResult<In<'_>, ()> {
    let length = terminated(verify(number, |&n| n <= 4096), char(':'));
    value((), terminated(length_data(length), char(',')))(i)
}

fn line(i: In<'_>) -> IResult<In<'_>, ()> {
    let plain = take_while1(|byte| byte != b'"' && byte != b'\n');
    let quoted = delimited(char('"'), take_while(|byte| byte != b'"'), char('"'));
    value((), terminated(many0_count(alt((plain, quoted))), char('\n')))(i)
}

pub fn heads_in_chunks(chunk: usize, text: &[u8]) -> Outcome {
    items(chunk, text, head)
}

pub fn frames_in_chunks(chunk: usize, text: &[u8]) -> Outcome {
    items(chunk, text, frame)
}

pub fn lines_in_chunks(chunk: usize, text: &[u8]) -> Outcome {
    items(chunk, text, line)
}
