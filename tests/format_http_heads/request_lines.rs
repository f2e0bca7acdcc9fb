//! Request lines of HTTP/1.1.
use std::fmt::Debug;
use std::process::Abort;
use format_http::heads::request_line::{RequestLine, read_request_line};
use winnow::error::ErrMode;

/// A text, the method, the target and the two version numbers of its request line, and the rest.
type Row = (&'static [u8], &'static [u8], &'static [u8], (u8, u8), &'static [u8]);

/// The lines of the examples of RFC 9112, section 3.2, and some at the edges of the grammar.
const LINES: &[Row] = &[
    (b"GET /where?q=now HTTP/1.1\r\n", b"GET", b"/where?q=now", (1, 1), b""),
    (
        b"GET http://www.example.org/pub/WWW/TheProject.html HTTP/1.1\r\n\r\n",
        b"GET",
        b"http://www.example.org/pub/WWW/TheProject.html",
        (1, 1),
        b"\r\n",
    ),
    (
        b"CONNECT www.example.com:80 HTTP/1.1\r\nHost: www.example.com\r\n",
        b"CONNECT",
        b"www.example.com:80",
        (1, 1),
        b"Host: www.example.com\r\n",
    ),
    (b"OPTIONS * HTTP/1.1\r\n", b"OPTIONS", b"*", (1, 1), b""),
    (b"get / HTTP/1.0\r\n", b"get", b"/", (1, 0), b""),
    (b"A HTTP/1.1 HTTP/2.0\r\nrest", b"A", b"HTTP/1.1", (2, 0), b"rest"),
    (b"!#$%&'*+-.^_`|~09azAZ ! HTTP/0.9\r\n", b"!#$%&'*+-.^_`|~09azAZ", b"!", (0, 9), b""),
    (b"M ~\" HTTP/9.9\r\n\r\n", b"M", b"~\"", (9, 9), b"\r\n"),
];

/// Texts that do not start with a request line: a part is missing, or spaces, bytes, digits or line
/// endings differ from those allowed.
const NO_LINES: &[&[u8]] = &[
    b"\r\n",
    b" GET / HTTP/1.1\r\n",
    b"GET  / HTTP/1.1\r\n",
    b"GET /  HTTP/1.1\r\n",
    b"GET / HTTP/1.1 \r\n",
    b"GET\t/ HTTP/1.1\r\n",
    b"GET /a b HTTP/1.1\r\n",
    b"GET HTTP/1.1\r\n",
    b"GET /\r\n",
    b"G(T / HTTP/1.1\r\n",
    b"GET /\x7f HTTP/1.1\r\n",
    b"GET /\xc3\xa9 HTTP/1.1\r\n",
    b"GET / http/1.1\r\n",
    b"GET / HTTP/11\r\n",
    b"GET / HTTP/1,1\r\n",
    b"GET / HTTP/1.10\r\n",
    b"GET / HTTP/x.1\r\n",
    b"GET / HTTP/1.\r\n",
    b"GET / HTTP/:.1\r\n",
    b"GET / HTTP/1./\r\n",
    b"GET / HTTP/1.1\n",
    b"GET / HTTP/1.1\rX",
];

fn same<T: PartialEq + Debug + Drop>(rt: &impl Abort, row: &[u8], got: T, want: T) {
    assert_eq!(rt; got, want, "{row:?}");
}

#[test]
fn read_request_line_of_lines(rt: HostRuntime) {
    for (text, method, target, version, rest) in LINES {
        let (major, minor) = *version;
        let want = Some(RequestLine { method: *method, target: *target, major, minor });
        let mut input = *text;
        same(&rt, text, read_request_line(&mut input).ok(), want);
        same(&rt, text, input, *rest);
    }
}

#[test]
fn read_request_line_of_none(rt: HostRuntime) {
    for text in NO_LINES {
        let mut input = *text;
        same(&rt, text, matches!(read_request_line(&mut input), Err(ErrMode::Backtrack(_))), true);
    }
}

#[test]
fn read_request_line_of_each_beginning(rt: HostRuntime) {
    let text = b"GET /where?q=now HTTP/1.1\r\n".as_slice();
    for count in 0..text.len() {
        let begun = &text[..count];
        let mut input = begun;
        same(&rt, begun, matches!(read_request_line(&mut input), Err(ErrMode::Backtrack(_))), true);
    }
}
