//! How long bodies are, by the rules of RFC 9112, section 6.3.
use format_http::bodies::framing::{
    BodyLength, FramingError, Message, body_length, request_body_length,
};
use format_http::heads::field_line::{Field, read_field_line};
use format_http::heads::head::read_head;
use std::alloc::Global;
use std::process::Abort;

type Answer = Result<BodyLength, FramingError>;

const NO_BODY: Answer = Ok(BodyLength::NoBody);

const CHUNKED: Answer = Ok(BodyLength::Chunked);

const CLOSE: Answer = Ok(BodyLength::UntilClose);

const NUMBER: Answer = Err(FramingError::LengthIsNoNumber);

const DIFFER: Answer = Err(FramingError::LengthsDiffer);

const LARGE: Answer = Err(FramingError::LengthTooLarge);

const BESIDE: Answer = Err(FramingError::LengthBesideCoding);

const NOT_CHUNKED: Answer = Err(FramingError::NotChunked);

const NOT_LAST: Answer = Err(FramingError::ChunkedNotLast);

const NO_CODING: Answer = Err(FramingError::InvalidCoding);

const BEFORE: Answer = Err(FramingError::CodingBeforeVersion);

/// Field lines of an HTTP/1.1 message, and the body lengths of a request and of a response to GET
/// with status 200 (rules 3 to 8).
const FIELDS: &[(&[u8], Answer, Answer)] = &[
    (b"", NO_BODY, CLOSE),
    (b"X: Content-Length\r\nContent-Lengths: 1\r\nTransfer-Encodings: a\r\n", NO_BODY, CLOSE),
    (b"Content-Length: 0\r\n", Ok(BodyLength::Length(0)), Ok(BodyLength::Length(0))),
    (b"content-LENGTH: 3495\r\n", Ok(BodyLength::Length(3495)), Ok(BodyLength::Length(3495))),
    (b"Content-Length: 42, 42\r\n", Ok(BodyLength::Length(42)), Ok(BodyLength::Length(42))),
    (b"Content-Length:42,42 ,\t42\r\nX: y\r\nContent-Length: 42\r\n", Ok(BodyLength::Length(42)), Ok(BodyLength::Length(42))),
    (b"Content-Length: 007\r\n", Ok(BodyLength::Length(7)), Ok(BodyLength::Length(7))),
    (b"Content-Length: 18446744073709551615\r\n", Ok(BodyLength::Length(u64::MAX)), Ok(BodyLength::Length(u64::MAX))),
    (b"Content-Length: 00018446744073709551615\r\n", Ok(BodyLength::Length(u64::MAX)), Ok(BodyLength::Length(u64::MAX))),
    (b"Content-Length: 18446744073709551616\r\n", LARGE, LARGE),
    (b"Content-Length: 340282366920938463463374607431768211456\r\n", LARGE, LARGE),
    (b"Content-Length: 99999999999999999999, 99999999999999999999\r\n", LARGE, LARGE),
    (b"Content-Length: 42, 43\r\n", DIFFER, DIFFER),
    (b"Content-Length: 42, 042\r\n", DIFFER, DIFFER),
    (b"Content-Length: 42\r\nContent-Length: 43\r\n", DIFFER, DIFFER),
    (b"Content-Length: 42\r\nContent-Length: 42, a\r\n", DIFFER, DIFFER),
    (b"Content-Length: a, b\r\n", DIFFER, DIFFER),
    (b"Content-Length: ,4\r\n", DIFFER, DIFFER),
    (b"Content-Length: 4,\r\n", DIFFER, DIFFER),
    (b"Content-Length: 4,,4\r\n", DIFFER, DIFFER),
    (b"Content-Length: 4, ,4\r\n", DIFFER, DIFFER),
    (b"Content-Length: 4,\t\r\n", DIFFER, DIFFER),
    (b"Content-Length: ,42,,\r\nContent-Length:\r\n", DIFFER, DIFFER),
    (b"Content-Length: 4\r\nContent-Length:\r\n", DIFFER, DIFFER),
    (b"Content-Length:\r\nContent-Length: 4\r\n", DIFFER, DIFFER),
    (b"Content-Length: 4;4\r\n", NUMBER, NUMBER),
    (b"Content-Length:\r\n", NUMBER, NUMBER),
    (b"Content-Length: ,\t,\r\n", NUMBER, NUMBER),
    (b"Content-Length: ,\r\nContent-Length:\r\n", NUMBER, NUMBER),
    (b"Content-Length: +42\r\n", NUMBER, NUMBER),
    (b"Content-Length: +4\r\n", NUMBER, NUMBER),
    (b"Content-Length: 4 4\r\n", NUMBER, NUMBER),
    (b"Content-Length: -1\r\n", NUMBER, NUMBER),
    (b"Content-Length: 0x2a\r\n", NUMBER, NUMBER),
    (b"Content-Length: 4 2\r\n", NUMBER, NUMBER),
    (b"Content-Length: 1.0\r\n", NUMBER, NUMBER),
    (b"Content-Length: a, a\r\n", NUMBER, NUMBER),
    (b"Transfer-Encoding: chunked\r\n", CHUNKED, CHUNKED),
    (b"transfer-encoding: gzip ,\tCHUNKED,\r\n", CHUNKED, CHUNKED),
    (b"Transfer-Encoding: gzip\r\nTransfer-Encoding: chunked\r\n", CHUNKED, CHUNKED),
    (b"Transfer-Encoding: gzip, chunked\r\n", CHUNKED, CHUNKED),
    (b"Transfer-Encoding: ,chunked\r\nTransfer-Encoding: ,\r\n", CHUNKED, CHUNKED),
    (b"Transfer-Encoding: xchunked, chunkedx, chunk, chunked\r\n", CHUNKED, CHUNKED),
    (b"Transfer-Encoding: chunked\r\nX: chunked\r\nTE: chunked\r\n", CHUNKED, CHUNKED),
    (b"Transfer-Encoding: chunked, chunked\r\n", NOT_LAST, NOT_LAST),
    (b"Transfer-Encoding: chunked,\t,CHUNKED\r\n", NOT_LAST, NOT_LAST),
    (b"Transfer-Encoding: chunked\r\nTransfer-Encoding: chunked\r\n", NOT_LAST, NOT_LAST),
    (b"transfer-encoding: Chunked\r\nX: y\r\nTransfer-Encoding:\r\nTRANSFER-ENCODING: ,chunked\r\n", NOT_LAST, NOT_LAST),
    (b"Transfer-Encoding: gzip, chunked\r\nTransfer-Encoding: chunked\r\n", NOT_LAST, NOT_LAST),
    (b"Transfer-Encoding: chunked, gzip\r\n", NOT_LAST, NOT_LAST),
    (b"Transfer-Encoding: chunked, gzip, chunked\r\n", NOT_LAST, NOT_LAST),
    (b"Transfer-Encoding: chunked\r\nTransfer-Encoding: gzip\r\n", NOT_LAST, NOT_LAST),
    (b"Transfer-Encoding: chunked, xchunked\r\n", NOT_LAST, NOT_LAST),
    (b"Transfer-Encoding: chunked, identity\r\n", NOT_LAST, NOT_LAST),
    (b"Transfer-Encoding: chunked;a=b, chunked\r\n", NOT_LAST, NOT_LAST),
    (b"Transfer-Encoding: chunked\t;a=b, chunked\r\n", NOT_LAST, NOT_LAST),
    (b"Transfer-Encoding: chunked\t;a, chunked\r\n", NO_CODING, NO_CODING),
    (b"Transfer-Encoding: chunked, chunked;a=b\r\n", NOT_LAST, NOT_LAST),
    (b"Transfer-Encoding: a;b=\"c, chunked, d\", chunked\r\n", CHUNKED, CHUNKED),
    (b"Transfer-Encoding: a;b=\"c, d\", chunked\r\n", CHUNKED, CHUNKED),
    (b"Transfer-Encoding: a;b=\",chunked,\", chunked\r\n", CHUNKED, CHUNKED),
    (b"Transfer-Encoding: a;b=\"\\\",\\\\\" ,chunked\r\n", CHUNKED, CHUNKED),
    (b"Transfer-Encoding: a ; b\t=\tc;d=\"\", chunked\r\n", CHUNKED, CHUNKED),
    (b"Transfer-Encoding: a;b=\"c, chunked\"\r\n", NOT_CHUNKED, CLOSE),
    (b"Transfer-Encoding: chunked, a;b=\"c,\"\r\n", NOT_LAST, NOT_LAST),
    (b"Transfer-Encoding: x;a=\"b,chunked\r\n", NO_CODING, NO_CODING),
    (b"Transfer-Encoding: \", chunked\r\n", NO_CODING, NO_CODING),
    (b"Transfer-Encoding: @, chunked\r\n", NO_CODING, NO_CODING),
    (b"Transfer-Encoding: a b, chunked\r\n", NO_CODING, NO_CODING),
    (b"Transfer-Encoding: a;, chunked\r\n", NO_CODING, NO_CODING),
    (b"Transfer-Encoding: a;b=, chunked\r\n", NO_CODING, NO_CODING),
    (b"Transfer-Encoding: a;=b, chunked\r\n", NO_CODING, NO_CODING),
    (b"Transfer-Encoding: ;a=b, chunked\r\n", NO_CODING, NO_CODING),
    (b"Transfer-Encoding: a;b=\"c\"d, chunked\r\n", NO_CODING, NO_CODING),
    (b"Transfer-Encoding: a;b=\"\\\", chunked\r\n", NO_CODING, NO_CODING),
    (b"Transfer-Encoding: \"chunked\"\r\n", NO_CODING, NO_CODING),
    (b"Transfer-Encoding: chunked, chunked, a b\r\n", NO_CODING, NO_CODING),
    (b"Transfer-Encoding: chunked\r\nTransfer-Encoding: \"\r\n", NO_CODING, NO_CODING),
    (b"Transfer-Encoding: gzip\r\n", NOT_CHUNKED, CLOSE),
    (b"Transfer-Encoding: xchunked\r\n", NOT_CHUNKED, CLOSE),
    (b"Transfer-Encoding: chunked;a=b\r\n", NOT_CHUNKED, CLOSE),
    (b"Transfer-Encoding:\r\n", NOT_CHUNKED, CLOSE),
    (b"Content-Length: 4\r\nTransfer-Encoding: chunked\r\n", BESIDE, BESIDE),
    (b"Transfer-Encoding: gzip\r\ncontent-length: a, b\r\n", BESIDE, BESIDE),
    (b"Transfer-Encoding: chunked, chunked\r\nContent-Length: 4\r\n", BESIDE, BESIDE),
];

/// The method of a request, the status of the response to it, and the body length of the response
/// if its Content-Length is 7 (rules 1 and 2).
const STATUSES: &[(&[u8], u16, Answer)] = &[
    (b"HEAD", 200, NO_BODY),
    (b"HEAD", 404, NO_BODY),
    (b"head", 200, Ok(BodyLength::Length(7))),
    (b"HEADS", 200, Ok(BodyLength::Length(7))),
    (b"GET", 99, Ok(BodyLength::Length(7))),
    (b"GET", 100, NO_BODY),
    (b"GET", 199, NO_BODY),
    (b"GET", 200, Ok(BodyLength::Length(7))),
    (b"GET", 203, Ok(BodyLength::Length(7))),
    (b"GET", 204, NO_BODY),
    (b"GET", 205, Ok(BodyLength::Length(7))),
    (b"GET", 303, Ok(BodyLength::Length(7))),
    (b"GET", 304, NO_BODY),
    (b"GET", 305, Ok(BodyLength::Length(7))),
    (b"CONNECT", 199, NO_BODY),
    (b"CONNECT", 200, Ok(BodyLength::Tunnel)),
    (b"CONNECT", 204, NO_BODY),
    (b"CONNECT", 299, Ok(BodyLength::Tunnel)),
    (b"CONNECT", 300, Ok(BodyLength::Length(7))),
    (b"connect", 200, Ok(BodyLength::Length(7))),
];

/// Parses consecutive field lines.
fn fields_of<'i>(rt: &impl Abort, alloc: Global, text: &'i [u8]) -> Vec<Field<'i>> {
    let mut fields = Vec::new(alloc);
    let mut input = text;
    while let Ok(field) = read_field_line(&mut input) {
        assert!(rt; fields.push(field).is_ok());
    }
    fields
}

#[test]
fn body_length_of_fields(rt: HostRuntime) {
    for (text, request, response) in FIELDS {
        let fields = fields_of(&rt, rt.alloc(), text);
        let found = body_length(Message::Request, 1, 1, fields.as_slice());
        assert!(rt; found == *request, "{text:?} {found:?}");
        let to = Message::Response { method: b"GET", status: 200 };
        let found = body_length(to, 1, 1, fields.as_slice());
        assert!(rt; found == *response, "{text:?} {found:?}");
    }
}

#[test]
fn body_length_of_statuses(rt: HostRuntime) {
    let length = [Field { name: b"Content-Length", value: b"7" }];
    let beside = [length[0], Field { name: b"Transfer-Encoding", value: b"chunked" }];
    for (method, status, want) in STATUSES {
        let message = Message::Response { method, status: *status };
        let found = body_length(message, 1, 1, length.as_slice());
        assert!(rt; found == *want, "{method:?} {status} {found:?}");
        let faulty = match *want {
            Ok(BodyLength::Length(_)) => BESIDE,
            other => other,
        };
        assert!(rt; body_length(message, 1, 1, beside.as_slice()) == faulty, "{method:?} {status}");
    }
}

/// HTTP versions, and whether a transfer coding is an error in them (section 6.1).
const VERSIONS: &[(u8, u8, bool)] = &[
    (0, 9, true),
    (1, 0, true),
    (1, 1, false),
    (1, 2, false),
    (2, 0, false),
];

#[test]
fn body_length_of_versions(rt: HostRuntime) {
    let coding = [Field { name: b"Transfer-Encoding", value: b"chunked" }];
    let beside = [coding[0], Field { name: b"Content-Length", value: b"7" }];
    let length = [beside[1]];
    for (major, minor, fault) in VERSIONS {
        let found = body_length(Message::Request, *major, *minor, coding.as_slice());
        assert!(rt; found == if *fault { BEFORE } else { CHUNKED }, "{major} {minor}");
        let found = body_length(Message::Request, *major, *minor, beside.as_slice());
        assert!(rt; found == if *fault { BEFORE } else { BESIDE }, "{major} {minor}");
        let found = body_length(Message::Request, *major, *minor, length.as_slice());
        assert!(rt; found == Ok(BodyLength::Length(7)), "{major} {minor}");
    }
}

/// Heads of requests, and how long their bodies are.
const HEADS: &[(&[u8], Answer)] = &[
    (b"GET /hello.txt HTTP/1.1\r\nHost: www.example.com\r\n\r\n", NO_BODY),
    (b"POST / HTTP/1.1\r\nHost: a\r\nContent-Length: 12\r\n\r\n", Ok(BodyLength::Length(12))),
    (b"HEAD / HTTP/1.1\r\nHost: a\r\nContent-Length: 12\r\n\r\n", Ok(BodyLength::Length(12))),
    (b"POST / HTTP/1.1\r\nHost: a\r\nTransfer-Encoding: chunked\r\n\r\n", CHUNKED),
    (b"POST / HTTP/1.0\r\nTransfer-Encoding: chunked\r\n\r\n", BEFORE),
];

#[test]
fn request_body_length_of_heads(rt: HostRuntime) {
    for (text, want) in HEADS {
        let mut input = *text;
        let head = read_head(rt.alloc(), &mut input);
        assert!(rt; head.is_ok_and(|it| request_body_length(&it) == *want), "{text:?}");
    }
}
