//! Field lines of heads of HTTP/1.1.
use std::fmt::Debug;
use std::process::Abort;
use format_http::heads::field_line::{Field, read_field_line, trimmed};
use winnow::error::ErrMode;

/// A text, the name and the value of its first field line, and the rest. The fields are those of
/// the examples of RFC 9110 and RFC 9112, and some at the edges of the grammar.
const LINES: &[(&[u8], &[u8], &[u8], &[u8])] = &[
    (b"Host: www.example.org\r\n", b"Host", b"www.example.org", b""),
    (b"Content-Length: 51\r\n\r\n", b"Content-Length", b"51", b"\r\n"),
    (b"ETag:\"xyzzy\"\r\nrest", b"ETag", b"\"xyzzy\"", b"rest"),
    (b"Example-Field: Foo, Bar\r\n", b"Example-Field", b"Foo, Bar", b""),
    (b"X:\r\n", b"X", b"", b""),
    (b"X: \t \r\n", b"X", b"", b""),
    (b"X:\t a\tb\r\n", b"X", b"a\tb", b""),
    (b"X: a \r\n", b"X", b"a", b""),
    (b"X:a\t \t\r\n \r\n", b"X", b"a", b" \r\n"),
    (b"X: a b  \r\n", b"X", b"a b", b""),
    (b"X: \xa0 \r\n", b"X", b"\xa0", b""),
    (b"X: \xe9\xff\r\n", b"X", b"\xe9\xff", b""),
    (b"!#$%&'*+-.^_`|~09azAZ: a:b\r\n", b"!#$%&'*+-.^_`|~09azAZ", b"a:b", b""),
];

/// Texts that do not start with a field line: no name, whitespace before the colon, no colon, a
/// control in the value, a lone line feed or carriage return.
const NO_LINES: &[&[u8]] = &[
    b"\r\n",
    b": a\r\n",
    b"Host : a\r\n",
    b" Host: a\r\n",
    b"Host\r\n",
    b"Host: a\x01\r\n",
    b"Host: a\x7f\r\n",
    b"Host: a\n",
    b"Host: a\rb\r\n",
    b"H\xe9: a\r\n",
    b"Ho(st: a\r\n",
];

/// A text, and the text without its trailing whitespace (RFC 9110, section 5.5).
const TRIMMED: &[(&[u8], &[u8])] = &[
    (b"", b""),
    (b" \t ", b""),
    (b"a", b"a"),
    (b" a b\t ", b" a b"),
    (b"a\r ", b"a\r"),
];

fn same<T: PartialEq + Debug + Drop>(rt: &impl Abort, row: &[u8], got: T, want: T) {
    assert_eq!(rt; got, want, "{row:?}");
}

#[test]
fn read_field_line_of_lines(rt: HostRuntime) {
    for (text, name, value, rest) in LINES {
        let want = Some(Field { name: *name, value: *value });
        let mut input = *text;
        same(&rt, text, read_field_line(&mut input).ok(), want);
        same(&rt, text, input, *rest);
    }
}

#[test]
fn read_field_line_of_none(rt: HostRuntime) {
    for text in NO_LINES {
        let mut input = *text;
        same(&rt, text, matches!(read_field_line(&mut input), Err(ErrMode::Backtrack(_))), true);
    }
}

#[test]
fn read_field_line_of_each_beginning(rt: HostRuntime) {
    let text = b"Host: www.example.org\r\n".as_slice();
    for count in 0..text.len() {
        let begun = &text[..count];
        let mut input = begun;
        same(&rt, begun, matches!(read_field_line(&mut input), Err(ErrMode::Backtrack(_))), true);
    }
}

#[test]
fn trimmed_of_texts(rt: HostRuntime) {
    for (text, value) in TRIMMED {
        same(&rt, text, trimmed(text), *value);
    }
}
