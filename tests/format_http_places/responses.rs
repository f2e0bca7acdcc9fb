//! Heads of responses as places in their bytes.
use crate::heads::{next, same};
use std::process::Abort;
use format_http::responses::head::read_response_head;
use format_http_places::parts::{HeadPart, Invalid};
use format_http_places::places::{Field, ResponseHead, Span};
use format_http_places::read::HeadError;
use format_http_places::response::read_response_head_into;

/// A text; the version numbers, the status code, and the offset and length of the reason of its
/// head; its fields; and the number of remaining bytes.
type Row = (
    &'static [u8],
    (u8, u8),
    u16,
    (usize, usize),
    &'static [(&'static [u8], &'static [u8])],
    usize,
);

/// The response of RFC 9110, section 3.9.
const HELLO: &[u8] = b"HTTP/1.1 200 OK\r\nDate: Mon, 27 Jul 2009 12:28:53 GMT\r\n\
Server: Apache\r\nLast-Modified: Wed, 22 Jul 2009 19:15:56 GMT\r\n\
ETag: \"34aa387-d-1568eb00\"\r\nAccept-Ranges: bytes\r\nContent-Length: 51\r\n\
Vary: Accept-Encoding\r\nContent-Type: text/plain\r\n\r\n\
Hello World! My content includes a trailing CRLF.\r\n";

/// This one, and some at the edges of the grammar of RFC 9112, section 4.
pub const HEADS: &[Row] = &[
    (
        HELLO,
        (1, 1),
        200,
        (13, 2),
        &[
            (b"Date", b"Mon, 27 Jul 2009 12:28:53 GMT"),
            (b"Server", b"Apache"),
            (b"Last-Modified", b"Wed, 22 Jul 2009 19:15:56 GMT"),
            (b"ETag", b"\"34aa387-d-1568eb00\""),
            (b"Accept-Ranges", b"bytes"),
            (b"Content-Length", b"51"),
            (b"Vary", b"Accept-Encoding"),
            (b"Content-Type", b"text/plain"),
        ],
        51,
    ),
    (b"HTTP/1.1 404 Not Found\r\n\r\nA", (1, 1), 404, (13, 9), &[], 1),
    (b"HTTP/1.1 200 \r\n\r\n", (1, 1), 200, (13, 0), &[], 0),
    (b"HTTP/1.1 200\r\n\r\n", (1, 1), 200, (12, 0), &[], 0),
    (b"HTTP/1.1 200  OK \t\r\n\r\n\r\n", (1, 1), 200, (13, 5), &[], 2),
    (b"HTTP/0.9 999 9\r\nX:\r\n\r\n", (0, 9), 999, (13, 1), &[(b"X", b"")], 0),
    (b"HTTP/2.0 000 \xe9\xff a\r\n\r\n", (2, 0), 0, (13, 4), &[], 0),
    (
        b"HTTP/1.1 301 Moved Permanently for good\r\nX: 1\r\nX:\t2 \r\n\r\nX: 3\r\n\r\n",
        (1, 1),
        301,
        (13, 26),
        &[(b"X", b"1"), (b"X", b"2")],
        8,
    ),
];

/// Texts that do not start with a head, and the length of the longest prefix of each that can start
/// one, and the part of a head in which the next byte is. That is the first byte that the grammar of
/// RFC 9112, sections 2.1 to 5.1, does not allow there.
pub const NO_HEADS: &[(&[u8], usize, HeadPart)] = &[
    (b"\r\nHTTP/1.1 200 OK\r\n\r\n", 0, HeadPart::Version),
    (b"GET / HTTP/1.1\r\n\r\n", 0, HeadPart::Version),
    (b"http/1.1 200 OK\r\n\r\n", 0, HeadPart::Version),
    (b"HTTP/x.1 200 OK\r\n\r\n", 5, HeadPart::Version),
    (b"HTTP/11 200 OK\r\n\r\n", 6, HeadPart::Version),
    (b"HTTP/1.x 200 OK\r\n\r\n", 7, HeadPart::Version),
    (b"HTTP/1.10 200 OK\r\n\r\n", 8, HeadPart::StatusCode),
    (b"HTTP/1.1\r\n\r\n", 8, HeadPart::StatusCode),
    (b"HTTP/1.1\t200 OK\r\n\r\n", 8, HeadPart::StatusCode),
    (b"HTTP/1.1  200 OK\r\n\r\n", 9, HeadPart::StatusCode),
    (b"HTTP/1.1 x00 OK\r\n\r\n", 9, HeadPart::StatusCode),
    (b"HTTP/1.1 2x0 OK\r\n\r\n", 10, HeadPart::StatusCode),
    (b"HTTP/1.1 20 OK\r\n\r\n", 11, HeadPart::StatusCode),
    (b"HTTP/1.1 2000 OK\r\n\r\n", 12, HeadPart::StatusCode),
    (b"HTTP/1.1 200OK\r\n\r\n", 12, HeadPart::StatusCode),
    (b"HTTP/1.1 200\tOK\r\n\r\n", 12, HeadPart::StatusCode),
    (b"HTTP/1.1 200\n\r\n", 12, HeadPart::StatusCode),
    (b"HTTP/1.1 200\r\r\n", 13, HeadPart::LineEnding),
    (b"HTTP/1.1 200 \n\r\n", 13, HeadPart::Value),
    (b"HTTP/1.1 200 O\0K\r\n\r\n", 14, HeadPart::Value),
    (b"HTTP/1.1 200 OK and so on, for long\x7f\r\n\r\n", 35, HeadPart::Value),
    (b"HTTP/1.1 200 OK\n\r\n", 15, HeadPart::Value),
    (b"HTTP/1.1 200 OK\rX\r\n", 16, HeadPart::LineEnding),
    (b"HTTP/1.1 200 OK\r\n\n", 17, HeadPart::FieldName),
    (b"HTTP/1.1 200 OK\r\n\r\r\n", 18, HeadPart::LineEnding),
    (b"HTTP/1.1 200 OK\r\n X: 1\r\n\r\n", 17, HeadPart::FieldName),
    (b"HTTP/1.1 200 OK\r\nX : 1\r\n\r\n", 18, HeadPart::Colon),
    (b"HTTP/1.1 200 OK\r\nX: 1\r\n 2\r\n\r\n", 23, HeadPart::FieldName),
];

const NOWHERE: Span = Span {
    offset: 0,
    length: 0,
};

const NO_FIELD: Field = Field {
    name: NOWHERE,
    value: NOWHERE,
};

/// The head of the row was read, and its fields into these entries.
fn is_head(rt: &impl Abort, row: &Row, answer: Result<ResponseHead, HeadError>, entries: &[Field]) {
    let (text, version, status, reason, fields, left) = row;
    match answer {
        Ok(head) => {
            same(rt, text, (head.major, head.minor), *version);
            same(rt, text, head.status, *status);
            same(rt, text, (head.reason.offset, head.reason.length), *reason);
            same(rt, text, head.length, text.len() - *left);
            same(rt, text, head.fields, fields.len());
            for (entry, (name, value)) in entries.iter().zip(fields.iter()) {
                let Field { name: at, value: stands } = *entry;
                same(rt, text, text.get(at.offset..at.offset + at.length), Some(*name));
                same(rt, text, text.get(stands.offset..stands.offset + stands.length), Some(*value));
                same(rt, text, text.get(at.offset + name.len()), Some(&b':'));
            }
        }
        Err(error) => same(rt, text, Err(error), Ok(())),
    }
}

#[test]
fn read_response_head_into_of_heads(rt: HostRuntime) {
    for row in HEADS {
        let mut entries = [NO_FIELD; 9];
        let answer = read_response_head_into(row.0, &mut entries);
        is_head(&rt, row, answer, &entries);
        for room in 0..row.4.len() {
            let answer = read_response_head_into(row.0, &mut entries[..room]);
            same(&rt, row.0, answer, Err(HeadError::TooManyFields(row.4.len())));
        }
        let answer = read_response_head_into(row.0, &mut entries[..row.4.len()]);
        is_head(&rt, row, answer, &entries);
        for count in 0..row.0.len() - row.5 {
            let answer = read_response_head_into(&row.0[..count], &mut entries);
            same(&rt, row.0, answer, Err(HeadError::Incomplete));
        }
    }
}

#[test]
fn read_response_head_into_of_none(rt: HostRuntime) {
    for (text, place, part) in NO_HEADS {
        let never = Err(HeadError::Invalid(Invalid { place: *place, part: *part }));
        let mut entries = [NO_FIELD; 4];
        let answer = read_response_head_into(text, &mut entries);
        same(&rt, text, answer, never);
        // The text up to and including that byte gives the same error; without that byte the reader
        // needs more input.
        let answer = read_response_head_into(&text[..*place + 1], &mut entries);
        same(&rt, text, answer, never);
        let answer = read_response_head_into(&text[..*place], &mut entries);
        same(&rt, text, answer, Err(HeadError::Incomplete));
    }
}

/// Checks that this reader gives the same result as the readers composed of parsers.
fn agree(rt: &impl Abort, alloc: std::alloc::Global, text: &[u8]) {
    let mut entries = [NO_FIELD; 8];
    let answer = read_response_head_into(text, &mut entries);
    let mut left = text;
    let whole = read_response_head(alloc, &mut left);
    match (answer, whole) {
        (Ok(head), Ok(other)) => {
            same(rt, text, head.length, text.len() - left.len());
            same(rt, text, head.fields, other.fields.len());
            same(rt, text, (head.major, head.minor), (other.line.major, other.line.minor));
            same(rt, text, head.status, other.line.status);
            let Span { offset, length } = head.reason;
            same(rt, text, text.get(offset..offset + length), Some(other.line.reason));
            for (entry, field) in entries.iter().zip(other.fields.iter()) {
                let (name, value) = (entry.name, entry.value);
                same(rt, text, text.get(name.offset..name.offset + name.length), Some(field.name));
                same(rt, text, text.get(value.offset..value.offset + value.length), Some(field.value));
            }
        }
        (Err(HeadError::Incomplete), Err(_)) => (),
        (Err(HeadError::Invalid(invalid)), Err(_)) => {
            let place = invalid.place;
            let more = read_response_head_into(&text[..place], &mut entries);
            same(rt, text, matches!(more, Err(HeadError::Incomplete)), true);
            let never = read_response_head_into(&text[..place + 1], &mut entries);
            same(rt, text, matches!(never, Err(HeadError::Invalid(it)) if it == invalid), true);
        }
        (answer, _) => same(rt, text, answer.is_ok(), false),
    }
}

/// Heads with some bytes replaced at random, and random prefixes of them.
#[test]
fn read_response_head_into_as_parsers_do(rt: HostRuntime) {
    let bytes = b"\r\n \t:2/1.\x7f\x00\xff,H".as_slice();
    let mut state = 9u32;
    for row in HEADS {
        for _ in 0..400u32 {
            let mut text = Vec::new(rt.alloc());
            assert!(rt; text.extend_from_slice(row.0).is_ok());
            for _ in 0..state % 3 {
                state = next(state);
                let place = (state >> 8) as usize % text.len();
                state = next(state);
                text[place] = bytes[(state >> 8) as usize % bytes.len()];
            }
            state = next(state);
            let end = (state >> 8) as usize % (text.len() * 2);
            agree(&rt, rt.alloc(), if end < text.len() { &text[..end] } else { &text });
        }
    }
}
