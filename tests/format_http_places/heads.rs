//! Heads of requests as places in their bytes.
use std::fmt::Debug;
use std::process::Abort;
use format_http::heads::head::read_head;
use format_http_places::parts::{HeadPart, Invalid};
use format_http_places::places::{Field, Head, Span};
use format_http_places::read::{HeadError, read_head_into};

/// A text, the method and the target of its head, its fields, and the rest.
pub type Row = (
    &'static [u8],
    &'static [u8],
    &'static [u8],
    &'static [(&'static [u8], &'static [u8])],
    &'static [u8],
);

/// The request of RFC 9110, section 3.9.
const HELLO: &[u8] = b"GET /hello.txt HTTP/1.1\r\nUser-Agent: curl/7.64.1\r\n\
Host: www.example.com\r\nAccept-Language: en, mi\r\n\r\n";

/// The request of RFC 9112, section 3.2.1.
const WHERE: &[u8] = b"GET /where?q=now HTTP/1.1\r\nHost: www.example.org\r\n\r\n";

/// These two, and some at the edges of the grammar.
pub const HEADS: &[Row] = &[
    (
        HELLO,
        b"GET",
        b"/hello.txt",
        &[
            (b"User-Agent", b"curl/7.64.1"),
            (b"Host", b"www.example.com"),
            (b"Accept-Language", b"en, mi"),
        ],
        b"",
    ),
    (WHERE, b"GET", b"/where?q=now", &[(b"Host", b"www.example.org")], b""),
    (b"A b HTTP/1.1\r\n\r\n", b"A", b"b", &[], b""),
    (b"A b HTTP/1.1\r\n\r\n\r\n", b"A", b"b", &[], b"\r\n"),
    (
        b"PUT /x HTTP/1.1\r\nX: 1\r\nX:\t2 \r\nY:\r\n\r\nX: 3\r\n\r\n",
        b"PUT",
        b"/x",
        &[(b"X", b"1"), (b"X", b"2"), (b"Y", b"")],
        b"X: 3\r\n\r\n",
    ),
    (
        b"PUT /x HTTP/1.1\r\nX: \t \r\n!#$%&'*+-.^_`|~09azAZ:a\xff\x80 \t b\t \t\r\n\r\n",
        b"PUT",
        b"/x",
        &[(b"X", b""), (b"!#$%&'*+-.^_`|~09azAZ", b"a\xff\x80 \t b")],
        b"",
    ),
];

/// Texts that do not start with a head, and the length of the longest prefix of each that can start
/// one, and the part of a head in which the next byte is. That is the first byte that the grammar of
/// RFC 9112, sections 2.1 to 5.1, does not allow there.
pub const NO_HEADS: &[(&[u8], usize, HeadPart)] = &[
    (b"\r\nA b HTTP/1.1\r\n\r\n", 0, HeadPart::Method),
    (b"A  b HTTP/1.1\r\n\r\n", 2, HeadPart::Target),
    (b"A b HTTP/1.1\n\n", 12, HeadPart::LineEnding),
    (b"A b HTTP/1.1\r\n\n", 14, HeadPart::FieldName),
    (b"A b HTTP/1.1\r\n\r\r\n", 15, HeadPart::LineEnding),
    (b"A b HTTP/1.1\r\nX: 1\r\n\n", 20, HeadPart::FieldName),
    (b"A b HTTP/1.1\r\nX: 1\n\r\n", 18, HeadPart::Value),
    (b"A b HTTP/1.1\r\n X: 1\r\n\r\n", 14, HeadPart::FieldName),
    (b"A b HTTP/1.1\r\nX: 1\r\n 2\r\n\r\n", 20, HeadPart::FieldName),
    (b"A b HTTP/1.1\r\nX : 1\r\n\r\n", 15, HeadPart::Colon),
    (b"A b HTTP/1.1\r\nX\r\n\r\n", 15, HeadPart::Colon),
    (b"A b HTTP/1.1\r\nX: 1\r\n: 2\r\n\r\n", 20, HeadPart::FieldName),
    (b"A b http/1.1\r\n\r\n", 4, HeadPart::Version),
    (b"A b HTTP/1-1\r\n\r\n", 10, HeadPart::Version),
    (b"A b HTTP/1.x\r\n\r\n", 11, HeadPart::Version),
    (b"A b HTTP/x.1\r\n\r\n", 9, HeadPart::Version),
    (b"A b HTTP/1.11\r\n\r\n", 12, HeadPart::LineEnding),
    (b"A /\x7f HTTP/1.1\r\n\r\n", 3, HeadPart::Target),
    (b"(A b HTTP/1.1\r\n\r\n", 0, HeadPart::Method),
    (b"A b HTTP/1.1\r\nX: abcdefghijklmnopqrstuvwxyz\x01\r\n\r\n", 43, HeadPart::Value),
    (b"A b HTTP/1.1\r\nX: abcdefghijklmnopqrstuvwxyz\rb\r\n", 44, HeadPart::LineEnding),
];

const NOWHERE: Span = Span {
    offset: 0,
    length: 0,
};

const NO_FIELD: Field = Field {
    name: NOWHERE,
    value: NOWHERE,
};

pub fn same<T: PartialEq + Debug + Drop>(rt: &impl Abort, row: &[u8], got: T, want: T) {
    assert_eq!(rt; got, want, "{row:?}");
}

/// Returns the bytes at a span.
fn at(rt: &impl Abort, text: &'static [u8], place: Span) -> &'static [u8] {
    match text.get(place.offset..place.offset + place.length) {
        Some(bytes) => bytes,
        None => panic!(rt; "no place of {text:?}: {place:?}"),
    }
}

/// The head of the row was read, and its fields into these entries.
fn is_head(rt: &impl Abort, row: &Row, answer: Result<Head, HeadError>, entries: &[Field]) {
    let (text, method, target, fields, rest) = row;
    match answer {
        Ok(head) => {
            same(rt, text, at(rt, text, head.method), *method);
            same(rt, text, at(rt, text, head.target), *target);
            same(rt, text, (head.major, head.minor), (1, 1));
            same(rt, text, head.length, text.len() - rest.len());
            same(rt, text, head.fields, fields.len());
            for (entry, (name, value)) in entries.iter().zip(fields.iter()) {
                same(rt, text, at(rt, text, entry.name), *name);
                same(rt, text, at(rt, text, entry.value), *value);
                same(rt, text, text.get(entry.name.offset + name.len()), Some(&b':'));
            }
        }
        Err(error) => same(rt, text, Err(error), Ok(())),
    }
}

#[test]
fn read_head_into_of_heads(rt: HostRuntime) {
    for row in HEADS {
        let mut entries = [NO_FIELD; 4];
        let answer = read_head_into(row.0, &mut entries);
        is_head(&rt, row, answer, &entries);
        for room in 0..row.3.len() {
            let answer = read_head_into(row.0, &mut entries[..room]);
            same(&rt, row.0, answer, Err(HeadError::TooManyFields(row.3.len())));
        }
        let answer = read_head_into(row.0, &mut entries[..row.3.len()]);
        is_head(&rt, row, answer, &entries);
    }
}

#[test]
fn read_head_into_of_none(rt: HostRuntime) {
    for (text, place, part) in NO_HEADS {
        let never = Err(HeadError::Invalid(Invalid { place: *place, part: *part }));
        let mut entries = [NO_FIELD; 4];
        let answer = read_head_into(text, &mut entries);
        same(&rt, text, answer, never);
        // The text up to and including that byte gives the same error; without that byte the reader
        // needs more input.
        let answer = read_head_into(&text[..*place + 1], &mut entries);
        same(&rt, text, answer, never);
        let answer = read_head_into(&text[..*place], &mut entries);
        same(&rt, text, answer, Err(HeadError::Incomplete));
    }
}

#[test]
fn read_head_into_of_each_beginning(rt: HostRuntime) {
    for row in HEADS {
        let (text, rest) = (row.0, row.4);
        for count in 0..text.len() - rest.len() {
            let mut entries = [NO_FIELD; 4];
            let answer = read_head_into(&text[..count], &mut entries);
            same(&rt, text, answer, Err(HeadError::Incomplete));
        }
    }
}

/// Values of 0 to 40 bytes, of names and targets of as many, in each place of sixteen bytes.
#[test]
fn read_head_into_of_each_length(rt: HostRuntime) {
    let run = b"abcdefghijklmnopqrstuvwxyzabcdefghijklmnop".as_slice();
    for count in 1..40usize {
        let mut text = Vec::new(rt.alloc());
        for part in [b"G ".as_slice(), &run[..count], b" HTTP/1.1\r\n", &run[..count], b":  ",
            &run[..count], b" \r\n\r\n"] {
            assert!(rt; text.extend_from_slice(part).is_ok());
        }
        let mut entries = [NO_FIELD; 1];
        let answer = read_head_into(&text, &mut entries);
        assert!(rt; matches!(answer, Ok(head) if head.length == text.len()
            && head.target == Span { offset: 2, length: count }));
        let name = Span { offset: 13 + count, length: count };
        let value = Span { offset: 16 + 2 * count, length: count };
        assert_eq!(rt; entries[0], Field { name, value });
    }
}

/// The next number of a sequence that looks random.
pub fn next(state: u32) -> u32 {
    state.wrapping_mul(1_664_525).wrapping_add(1_013_904_223)
}

/// Checks that this reader gives the same result as the readers composed of parsers.
fn agree(rt: &impl Abort, alloc: std::alloc::Global, text: &[u8]) {
    let mut entries = [NO_FIELD; 8];
    let answer = read_head_into(text, &mut entries);
    let mut left = text;
    let whole = read_head(alloc, &mut left);
    match (answer, whole) {
        (Ok(head), Ok(other)) => {
            same(rt, text, head.length, text.len() - left.len());
            same(rt, text, head.fields, other.fields.len());
            same(rt, text, (head.major, head.minor), (other.line.major, other.line.minor));
            for (entry, field) in entries.iter().zip(other.fields.iter()) {
                let (name, value) = (entry.name, entry.value);
                same(rt, text, text.get(name.offset..name.offset + name.length), Some(field.name));
                same(rt, text, text.get(value.offset..value.offset + value.length), Some(field.value));
            }
        }
        (Err(HeadError::Incomplete), Err(_)) => (),
        (Err(HeadError::Invalid(invalid)), Err(_)) => {
            let place = invalid.place;
            let more = read_head_into(&text[..place], &mut entries);
            same(rt, text, matches!(more, Err(HeadError::Incomplete)), true);
            let never = read_head_into(&text[..place + 1], &mut entries);
            same(rt, text, matches!(never, Err(HeadError::Invalid(it)) if it == invalid), true);
        }
        (answer, _) => same(rt, text, answer.is_ok(), false),
    }
}

/// Heads with some bytes replaced at random, and random prefixes of them.
#[test]
fn read_head_into_as_parsers_do(rt: HostRuntime) {
    let bytes = b"\r\n \t:aG/1.\x7f\x00\xff,H".as_slice();
    let mut state = 7u32;
    for row in HEADS {
        for _ in 0..400u32 {
            let mut text = Vec::new(rt.alloc());
            assert!(rt; text.extend_from_slice(row.0).is_ok());
            for _ in 0..state % 3 {
                state = next(state);
                let place = (state >> 8) as usize % text.len();
                state = next(state);
                text[place] = bytes[(state >> 8) as usize % bytes.len()];
            }
            state = next(state);
            let end = (state >> 8) as usize % (text.len() * 2);
            agree(&rt, rt.alloc(), if end < text.len() { &text[..end] } else { &text });
        }
    }
}
