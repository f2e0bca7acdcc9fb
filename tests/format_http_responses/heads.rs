//! Heads of responses, and the lengths of the bodies after them.
use format_http::bodies::framing::{BodyLength, FramingError};
use format_http::responses::head::{read_response_head, response_body_length};

/// The response of RFC 9110, section 3.9, whose body has 51 bytes.
const HELLO: &[u8] = b"HTTP/1.1 200 OK\r\nDate: Mon, 27 Jul 2009 12:28:53 GMT\r\n\
Server: Apache\r\nLast-Modified: Wed, 22 Jul 2009 19:15:56 GMT\r\n\
ETag: \"34aa387-d-1568eb00\"\r\nAccept-Ranges: bytes\r\nContent-Length: 51\r\n\
Vary: Accept-Encoding\r\nContent-Type: text/plain\r\n\r\n\
Hello World! My content includes a trailing CRLF.\r\n";

#[test]
fn read_response_head_of_the_standard(rt: HostRuntime) {
    let mut input = HELLO;
    let head = read_response_head(rt.alloc(), &mut input);
    assert!(rt; input.len() == 51);
    assert!(rt; input.starts_with(b"Hello World!"));
    let Ok(head) = head else {
        assert!(rt; false);
        return;
    };
    assert!(rt; head.line.status == 200 && head.fields.len() == 8);
    assert!(rt; head.fields[1].name == b"Server".as_slice());
    assert!(rt; head.fields[1].value == b"Apache".as_slice());
    assert!(rt; response_body_length(b"GET", &head) == Ok(BodyLength::Length(51)));
    assert!(rt; response_body_length(b"HEAD", &head) == Ok(BodyLength::NoBody));
    assert!(rt; response_body_length(b"CONNECT", &head) == Ok(BodyLength::Tunnel));
}

/// Texts that begin with no head.
const NO_HEADS: &[&[u8]] = &[
    b"",
    b"HTTP/1.1 200 OK\r\n",
    b"HTTP/1.1 200 OK\r\nA: b\r\n",
    b"HTTP/1.1 200 OK\r\nA : b\r\n\r\n",
    b"HTTP/1.1 200 OK\r\nA: b\r\n c\r\n\r\n",
    b"HTTP/1.1 200 OK\r\n\n",
    b"HTTP/1.1 200 OK\n\r\n",
    b"GET / HTTP/1.1\r\n\r\n",
    b"\r\nHTTP/1.1 200 OK\r\n\r\n",
];

#[test]
fn read_response_head_of_none(rt: HostRuntime) {
    for text in NO_HEADS {
        let mut input = *text;
        assert!(rt; read_response_head(rt.alloc(), &mut input).is_err(), "{text:?}");
        assert!(rt; input == *text, "{text:?}");
    }
}

/// Heads of responses to GET, and how long their bodies are (RFC 9112, section 6.3).
const BODIES: &[(&[u8], Result<BodyLength, FramingError>)] = &[
    (b"HTTP/1.1 200 OK\r\n\r\n", Ok(BodyLength::UntilClose)),
    (b"HTTP/1.1 200\r\nTransfer-Encoding: chunked\r\n\r\n", Ok(BodyLength::Chunked)),
    (b"HTTP/1.1 200 OK\r\nTransfer-Encoding: gzip\r\n\r\n", Ok(BodyLength::UntilClose)),
    (b"HTTP/1.1 304 \r\nContent-Length: 51\r\n\r\n", Ok(BodyLength::NoBody)),
    (
        b"HTTP/1.0 200 OK\r\nTransfer-Encoding: chunked\r\n\r\n",
        Err(FramingError::CodingBeforeVersion),
    ),
];

#[test]
fn response_body_length_of_heads(rt: HostRuntime) {
    for (text, want) in BODIES {
        let mut input = *text;
        let head = read_response_head(rt.alloc(), &mut input);
        assert!(rt; head.is_ok_and(|it| response_body_length(b"GET", &it) == *want), "{text:?}");
    }
}
