//! JSON values, CSV with quotes, and Redis replies, with the parsers of these formats.

use crate::outcome::Outcome;
use format_json_texts::value::Value;
use format_json_values::value::parse_value;
use std::alloc::Global;
use std::str;
use format_csv::{LineEnd, Record, parse_document};
use format_resp::read::read_reply;
use format_resp::reply::{Protocol, Reply};
use winnow::stream::{Partial, Stream};

/// Returns the length in bytes of a string or a number.
fn text_bytes(value: &Value<Global>) -> u64 {
    match value {
        Value::Text(text) => text.len() as u64,
        Value::Number(text) => text.len() as u64,
        _ => 0,
    }
}

/// Returns the length in bytes of the names of members, and of strings and numbers in their values.
fn member_bytes(members: &[(String<Global>, Value<Global>)]) -> u64 {
    let mut sum: u64 = 0;
    for member in members {
        sum = sum
            .wrapping_add(member.0.len() as u64)
            .wrapping_add(text_bytes(&member.1));
    }
    sum
}

/// Sums `member_bytes` over all objects in `values`.
#[inline(never)]
fn object_bytes(values: &[Value<Global>]) -> u64 {
    let mut sum: u64 = 0;
    for value in values {
        match value {
            Value::Object(members) => sum = sum.wrapping_add(member_bytes(members)),
            _ => {}
        }
    }
    sum
}

/// Parses a JSON array. Counts its elements, and sums the lengths in bytes of the names, strings
/// and numbers of the objects in it. `out` stays zero for other input, or if an allocation fails.
#[unsafe(no_mangle)]
pub extern "C" fn timed_json(alloc: Global, input: &[u8], out: &mut Outcome) {
    *out = Outcome {
        count: 0,
        sum: 0,
        left: 0,
    };
    let Ok(text) = str::from_utf8(input) else {
        return;
    };
    if let Ok(Value::Array(values)) = parse_value(alloc, 16, text) {
        out.count = values.len() as u64;
        out.sum = object_bytes(&values);
    }
}

/// Returns the length in bytes of the fields of a record.
fn field_bytes(record: &Record<Global>) -> u64 {
    let mut sum: u64 = 0;
    for field in record {
        sum = sum.wrapping_add(field.len() as u64);
    }
    sum
}

/// Returns the length in bytes of all fields.
#[inline(never)]
fn record_bytes(records: &[Record<Global>]) -> u64 {
    let mut sum: u64 = 0;
    for record in records {
        sum = sum.wrapping_add(field_bytes(record));
    }
    sum
}

/// Parses records, some of whose fields are quoted. Counts the records, and sums the lengths of
/// their fields in bytes. `out` stays zero for other input, or if an allocation fails.
#[unsafe(no_mangle)]
pub extern "C" fn timed_csv(alloc: Global, input: &[u8], out: &mut Outcome) {
    *out = Outcome {
        count: 0,
        sum: 0,
        left: 0,
    };
    if let Ok(records) = parse_document(alloc, LineEnd::Lf, input) {
        out.count = records.len() as u64;
        out.sum = record_bytes(&records);
    }
}

/// Returns the length in bytes of a reply, if it is a byte string.
fn bytes_of(reply: &Reply<&[u8], Global>) -> u64 {
    match reply {
        Reply::Simple(bytes) => bytes.len() as u64,
        Reply::Error(bytes) => bytes.len() as u64,
        Reply::Bulk(bytes) => bytes.len() as u64,
        _ => 0,
    }
}

/// Returns the length in bytes of a reply, or of the elements of an array.
fn reply_bytes(reply: &Reply<&[u8], Global>) -> u64 {
    let mut sum: u64 = bytes_of(reply);
    match reply {
        Reply::Array(elements) => {
            for element in elements {
                sum = sum.wrapping_add(bytes_of(element));
            }
        }
        _ => {}
    }
    sum
}

/// Parses as many replies as possible. Counts them and their bytes, and returns the number of bytes
/// that remain.
fn read_replies(alloc: Global, input: &mut Partial<&[u8]>) -> Outcome {
    let mut count: u64 = 0;
    let mut sum: u64 = 0;
    let mut left = input.eof_offset();
    // There are at most as many replies as bytes.
    for _ in 0..left {
        match read_reply(alloc, Protocol::Resp2, 4, input) {
            Ok(reply) => {
                count = count.wrapping_add(1);
                sum = sum.wrapping_add(reply_bytes(&reply));
                left = input.eof_offset();
            }
            Err(_) => break,
        }
    }
    Outcome {
        count,
        sum,
        left: left as u64,
    }
}

/// Parses Redis replies. Counts them, and sums their lengths in bytes, with those of elements.
#[unsafe(no_mangle)]
pub extern "C" fn timed_replies(alloc: Global, input: &[u8], out: &mut Outcome) {
    let mut rest = Partial::new(input);
    *out = read_replies(alloc, &mut rest);
}
