//! Status lines (RFC 9112, section 4).
use format_http::responses::status_line::read_status_line;

/// A text; the version numbers, the status code and the reason of its status line; and the number
/// of remaining bytes.
type Row = (&'static [u8], u8, u8, u16, &'static [u8], usize);

const LINES: &[Row] = &[
    (b"HTTP/1.1 200 OK\r\n", 1, 1, 200, b"OK", 0),
    (b"HTTP/1.1 404 Not Found\r\nServer: a\r\n\r\n", 1, 1, 404, b"Not Found", 13),
    (b"HTTP/1.0 301 Moved Permanently\r\n", 1, 0, 301, b"Moved Permanently", 0),
    (b"HTTP/1.1 200 \r\n", 1, 1, 200, b"", 0),
    (b"HTTP/1.1 200\r\n", 1, 1, 200, b"", 0),
    (b"HTTP/1.1 200  OK \t\r\nx", 1, 1, 200, b" OK \t", 1),
    (b"HTTP/1.1 200 \xe9t\xe9\r\n", 1, 1, 200, b"\xe9t\xe9", 0),
    (b"HTTP/0.9 999 9\r\n", 0, 9, 999, b"9", 0),
    (b"HTTP/2.0 000 \r\n", 2, 0, 0, b"", 0),
    (b"HTTP/1.1 101 Switching Protocols\r\n", 1, 1, 101, b"Switching Protocols", 0),
];

/// Texts that begin with none.
const NO_LINES: &[&[u8]] = &[
    b"",
    b"HTTP/1.1 200 OK",
    b"HTTP/1.1 200 OK\n",
    b"HTTP/1.1 200 OK\r",
    b"HTTP/1.1 200 OK\rX\r\n",
    b"HTTP/1.1 200 O\0K\r\n",
    b"HTTP/1.1 200 O\x7fK\r\n",
    b"HTTP/1.1 20 OK\r\n",
    b"HTTP/1.1 2000 OK\r\n",
    b"HTTP/1.1 200OK\r\n",
    b"HTTP/1.1 200\tOK\r\n",
    b"HTTP/1.1 2x0 OK\r\n",
    b"HTTP/1.1  200 OK\r\n",
    b"HTTP/1.1\t200 OK\r\n",
    b"HTTP/11 200 OK\r\n",
    b"HTTP/1.10 200 OK\r\n",
    b"HTTP/1 200 OK\r\n",
    b"http/1.1 200 OK\r\n",
    b" HTTP/1.1 200 OK\r\n",
    b"\r\nHTTP/1.1 200 OK\r\n",
    b"ICY 200 OK\r\n",
];

#[test]
fn read_status_line_of_lines(rt: HostRuntime) {
    for (text, major, minor, status, reason, left) in LINES {
        let mut input = *text;
        let Ok(line) = read_status_line(&mut input) else {
            assert!(rt; false, "{text:?}");
            return;
        };
        assert!(rt; line.major == *major && line.minor == *minor, "{text:?}");
        assert!(rt; line.status == *status && line.reason == *reason, "{text:?}");
        assert!(rt; input.len() == *left, "{text:?}");
    }
}

#[test]
fn read_status_line_of_none(rt: HostRuntime) {
    for text in NO_LINES {
        let mut input = *text;
        assert!(rt; read_status_line(&mut input).is_err(), "{text:?}");
    }
}
