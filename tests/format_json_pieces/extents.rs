//! The end of a value in input that arrives in chunks, at every cut.
use format_json_extents::tokens::skip_whitespace;
use format_json_extents::value::read_value;
use format_json_pieces::expected::Expected;
use format_json_pieces::extent::{Invalid, Reason, ValueExtent};
use format_json_pieces::place::first_place;
use format_json_pieces::value::read_next_in_pieces;
use std::alloc::Global;
use std::process::Abort;
use winnow::stream::{Partial, StreamIsPartial};

/// How deep arrays and objects may be nested.
const DEPTH: usize = 3;

/// Bytes that start with a value, perhaps after whitespace, and more bytes after it.
const DOCUMENTS: &[&[u8]] = &[
    b"null",
    b" true,",
    b"\r\n\t false",
    b"0 ",
    b"-12.5e+3\n",
    b"1E9]",
    b"7 8",
    b"0-",
    b"\"\" ",
    b"\"plain text that is longer than sixteen bytes\",",
    b"\"\\\"\\\\\\/\\b\\f\\n\\r\\t\"",
    b"\"\\u0041\\ud834\\udd1e\\uD7ff\\ue000\"",
    b"\"\xc3\xa9\xe0\xa0\x80\xed\x9f\xbf\xe2\x82\xac\xf0\x9d\x84\x9e\xf4\x8f\xbf\xbf\"",
    b"[]]",
    b" [ ] ",
    b"{}",
    b"{ } ",
    b"[1, -2.5 ,\"a]\", null]",
    b"{\"a\" : 1 , \"a\":\"}\"}\n{",
    b"[[],{},[[]]]",
    b"{\"a\":[{\"b\":-0.5e+07}]}}",
    b"\n[{\"a\": true},\n {\"b\": [false]}]\n",
];

/// Bytes that take the place of each byte of a document.
const OTHERS: &[u8] = b"[]{},:\"\\/ \t\n\x00u019-+.eEtrfnlD\x7f\x80\xbf\xc3\xe0\xed\xf0\xf4\xff";

/// A result of calls, and the number of bytes of the last call.
type Told = (Result<Option<usize>, Invalid>, usize);

/// Passes the bytes up to each of the lengths, until a call does not return `None`.
fn pass(level: usize, bytes: &[u8], lengths: &[usize]) -> Told {
    let (mut extent, mut open) = (ValueExtent::new(), [0; DEPTH]);
    let mut last = 0;
    for length in lengths {
        last = *length;
        let told = extent.advance(&mut open[..level], &bytes[..last]);
        if !matches!(told, Ok(None)) {
            return (told, last);
        }
    }
    (Ok(None), last)
}

/// Passes the bytes one by one.
fn pass_each(level: usize, bytes: &[u8]) -> Told {
    let (mut extent, mut open) = (ValueExtent::new(), [0; DEPTH]);
    for length in 0..=bytes.len() {
        let told = extent.advance(&mut open[..level], &bytes[..length]);
        if !matches!(told, Ok(None)) {
            return (told, length);
        }
    }
    (Ok(None), bytes.len())
}

/// Checks the calls for bytes that are cut once, twice and at every byte.
fn each_cut(rt: &impl Abort, level: usize, bytes: &[u8]) {
    let (whole, _) = pass(level, bytes, &[bytes.len()]);
    let (each, read) = pass_each(level, bytes);
    assert!(rt; each == whole, "{bytes:?}");
    for one in 0..=bytes.len() {
        for two in one..=bytes.len() {
            let (told, last) = pass(level, bytes, &[one, two, bytes.len()]);
            assert!(rt; told == whole, "{one} {two} {bytes:?}");
            let stops = if read <= one { one } else if read <= two { two } else { bytes.len() };
            assert!(rt; last == stops, "{one} {two} {bytes:?}");
        }
    }
}

#[test]
fn extent_at_every_cut(rt: HostRuntime) {
    for bytes in DOCUMENTS {
        each_cut(&rt, DEPTH, bytes);
        for level in 0..DEPTH {
            each_cut(&rt, level, bytes);
        }
    }
}

/// Returns the length of the value that complete bytes start with, and the whitespace before it.
fn length_of(level: usize, bytes: &[u8]) -> Option<usize> {
    let mut left = skip_whitespace(bytes);
    read_value(level, &mut left)?;
    Some(bytes.len() - left.len())
}

#[test]
fn extent_of_whole_values(rt: HostRuntime) {
    for bytes in DOCUMENTS {
        let mut open = [0; DEPTH];
        let told = ValueExtent::new().finish(&mut open, bytes);
        assert!(rt; told == Ok(length_of(DEPTH, bytes)), "{bytes:?}");
        let mut input = Partial::new(*bytes);
        input.complete();
        let read = read_next_in_pieces(rt.alloc(), DEPTH, &mut input);
        assert!(rt; matches!(read, Ok(Some(_))), "{bytes:?}");
        assert!(rt; told == Ok(Some(bytes.len() - input.as_inner().len())), "{bytes:?}");
    }
}

/// Compares the result for bytes with the walk of a text.
fn compare(rt: &impl Abort, alloc: Global, level: usize, bytes: &[u8]) {
    let (told, _) = pass_each(level, bytes);
    match (told, first_place(alloc, level, bytes)) {
        (Ok(Some(length)), Ok(place)) => {
            assert!(rt; length <= place.offset, "{bytes:?}");
            match first_place(alloc, level, &bytes[..length]) {
                Ok(place) => {
                    assert!(rt; place.offset == length && place.expected == Expected::End);
                }
                Err(_) => assert!(rt; false),
            }
        }
        (Ok(None), Ok(place)) => assert!(rt; place.offset == bytes.len(), "{bytes:?}"),
        (Err(invalid), Ok(place)) => {
            assert!(rt; invalid.offset == place.offset, "{bytes:?}");
            let deep = place.expected == Expected::NoDeeper;
            assert!(rt; (invalid.reason == Reason::TooDeep) == deep, "{bytes:?}");
        }
        (_, Err(_)) => assert!(rt; false),
    }
}

/// Each document at each level, and with each of its bytes changed into a third of the others.
#[test]
fn extent_agrees_with_the_walk(rt: HostRuntime) {
    for bytes in DOCUMENTS {
        for level in 0..=DEPTH {
            compare(&rt, rt.alloc(), level, bytes);
        }
        let mut changed = Vec::new(rt.alloc());
        assert!(rt; changed.extend_from_slice(bytes).is_ok());
        for index in 0..bytes.len() {
            for byte in OTHERS.iter().skip(index % 3).step_by(3) {
                changed[index] = *byte;
                compare(&rt, rt.alloc(), DEPTH, &changed);
            }
            changed[index] = bytes[index];
        }
    }
}

/// Bytes, and the offset of the error or the length of complete bytes.
const WHOLE: &[(&[u8], Result<Option<usize>, (Reason, usize)>)] = &[
    (b"", Ok(None)),
    (b" \n\t\r", Ok(None)),
    (b"12", Ok(Some(2))),
    (b" 1.5", Ok(Some(4))),
    (b"-", Err((Reason::Unfinished, 1))),
    (b"1.", Err((Reason::Unfinished, 2))),
    (b"1e+", Err((Reason::Unfinished, 3))),
    (b"nul", Err((Reason::Unfinished, 3))),
    (b"\"a", Err((Reason::Unfinished, 2))),
    (b"[1", Err((Reason::Unfinished, 2))),
    (b"[1] ", Ok(Some(3))),
    (b"{\"a\":1,", Err((Reason::Unfinished, 7))),
    (b"[1,]", Err((Reason::Malformed, 3))),
    (b"[[[[", Err((Reason::TooDeep, 3))),
    (b"01", Err((Reason::Malformed, 1))),
    (b"\"\xff", Err((Reason::Malformed, 1))),
];

#[test]
fn extent_of_complete_input(rt: HostRuntime) {
    for (bytes, told) in WHOLE {
        let mut open = [0; DEPTH];
        match (ValueExtent::new().finish(&mut open, bytes), told) {
            (Ok(length), Ok(other)) => assert!(rt; length == *other, "{bytes:?}"),
            (Err(invalid), Err((reason, offset))) => {
                assert!(rt; invalid.reason == *reason && invalid.offset == *offset, "{bytes:?}");
            }
            _ => assert!(rt; false, "{bytes:?}"),
        }
    }
}

#[test]
fn extent_of_a_stream(rt: HostRuntime) {
    let bytes = b"{\"a\": 1}\n[2]3 \"4\"\n5".as_slice();
    let (mut extent, mut open) = (ValueExtent::new(), [0; DEPTH]);
    let (mut start, mut ends) = (0, 0);
    for end in 0..=bytes.len() {
        while let Ok(Some(length)) = extent.advance(&mut open, &bytes[start..end]) {
            start += length;
            ends = ends * 100 + start;
        }
    }
    assert_eq!(rt; ends, 8121317);
    assert!(rt; extent.finish(&mut open, &bytes[start..]) == Ok(Some(2)));
}

#[test]
fn extent_of_other_bytes(rt: HostRuntime) {
    let mut open = [b'{', b'['];
    let mut past = ValueExtent { passed: 9, ..ValueExtent::new() };
    assert!(rt; past.advance(&mut open, b"1 ") == Ok(None));
    let mut deep = ValueExtent { depth: usize::MAX, ..ValueExtent::new() };
    assert!(rt; matches!(deep.advance(&mut open, b"[]"), Err(_)));
}
