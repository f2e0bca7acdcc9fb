//! Requests that a server must reject, by their heads.
use format_http::bodies::framing::FramingError;
use format_http::bodies::refusals::{Reason, request_framing};
use format_http::heads::field_line::read_field_line;
use format_http::heads::head::{Head, read_head};
use format_http::heads::hosts::HostError;
use std::alloc::Global;
use std::process::Abort;

const NO_HOST: Option<Reason> = Some(Reason::Host(HostError::Missing));

const MANY_HOSTS: Option<Reason> = Some(Reason::Host(HostError::Many));

const WRONG_HOST: Option<Reason> = Some(Reason::Host(HostError::Invalid));

const TARGET: Option<Reason> = Some(Reason::Target);

/// Heads, and why each is rejected (RFC 9112, section 3.2, whose examples are the first rows).
const HEADS: &[(&[u8], Option<Reason>)] = &[
    (b"GET /where?q=now HTTP/1.1\r\nHost: www.example.org\r\n\r\n", None),
    (b"OPTIONS * HTTP/1.1\r\nHost: www.example.org:8001\r\n\r\n", None),
    (b"CONNECT server.example.com:80 HTTP/1.1\r\nHost: server.example.com\r\n\r\n", None),
    (b"GET / HTTP/1.1\r\nHost:\r\n\r\n", None),
    (b"GET / HTTP/1.1\r\nhOST: a\r\nX: y\r\n\r\n", None),
    (b"GET / HTTP/1.0\r\n\r\n", None),
    (b"GET / HTTP/1.0\r\nX: Host\r\n\r\n", None),
    (b"GET / HTTP/2.0\r\n\r\n", None),
    (b"GET / HTTP/0.9\r\n\r\n", None),
    (b"GET / HTTP/1.1\r\n\r\n", NO_HOST),
    (b"GET / HTTP/1.2\r\n\r\n", NO_HOST),
    (b"GET / HTTP/1.1\r\nHosts: a\r\nHos: b\r\nX: Host\r\n\r\n", NO_HOST),
    (b"GET / HTTP/1.1\r\nHost: a\r\nHost: a\r\n\r\n", MANY_HOSTS),
    (b"GET / HTTP/1.1\r\nHost: a\r\nX: y\r\nHOST: b\r\n\r\n", MANY_HOSTS),
    (b"GET / HTTP/1.0\r\nhost: a\r\nHost: b\r\nhosT:\r\n\r\n", MANY_HOSTS),
    (b"GET / HTTP/1.1\r\nHost: a/\r\nHost: a\r\n\r\n", MANY_HOSTS),
    (b"GET / HTTP/1.0\r\nHost: a/\r\n\r\n", WRONG_HOST),
    (b"GET a HTTP/1.1\r\n\r\n", TARGET),
];

/// Values of a Host field: a host, and an optional port (RFC 3986, section 3.2).
const HOSTS: &[(&[u8], Option<Reason>)] = &[
    (b"", None),
    (b"a", None),
    (b"example.com:8080", None),
    (b"a:", None),
    (b":80", None),
    (b"127.0.0.1", None),
    (b"a_b~!$&'()*+,;=-.", None),
    (b"%41%7f:0", None),
    (b"[::1]", None),
    (b"[2001:db8::7]:443", None),
    (b"[v1.a:b]", None),
    (b"a, b", WRONG_HOST),
    (b"a/b@c d", WRONG_HOST),
    (b"a b", WRONG_HOST),
    (b"a@b", WRONG_HOST),
    (b"a/", WRONG_HOST),
    (b"a?", WRONG_HOST),
    (b"a#", WRONG_HOST),
    (b"a:b", WRONG_HOST),
    (b"a:80:80", WRONG_HOST),
    (b"%4", WRONG_HOST),
    (b"%4g", WRONG_HOST),
    (b"%", WRONG_HOST),
    (b"[::1", WRONG_HOST),
    (b"[]", WRONG_HOST),
    (b"::1", WRONG_HOST),
    (b"[::1]a", WRONG_HOST),
    (b"a[::1]", WRONG_HOST),
    (b"\xc3\xa9", WRONG_HOST),
];

/// Methods, targets, and whether the target is of a form that the method may have (RFC 9112, section
/// 3.2).
const TARGETS: &[(&[u8], Option<Reason>)] = &[
    (b"GET /", None),
    (b"GET /a//b;c=d/@:?e=/?f", None),
    (b"GET /?", None),
    (b"GET //a", None),
    (b"GET /%c3%A9", None),
    (b"GET http://www.example.org/pub/WWW/TheProject.html", None),
    (b"GET http://a:80?b", None),
    (b"GET HTTP://[::1]:80/", None),
    (b"GET http://", None),
    (b"GET urn:a:b", None),
    (b"GET a+b-c.d1:", None),
    (b"GET a:/b", None),
    (b"OPTIONS *", None),
    (b"OPTIONS /", None),
    (b"OPTIONS http://a", None),
    (b"CONNECT www.example.com:80", None),
    (b"CONNECT [::1]:", None),
    (b"GET /a#b", TARGET),
    (b"GET d", TARGET),
    (b"GET *", TARGET),
    (b"OPTIONS **", TARGET),
    (b"options *", TARGET),
    (b"GET ?a", TARGET),
    (b"GET /<", TARGET),
    (b"GET /[", TARGET),
    (b"GET /%c", TARGET),
    (b"GET /%cg", TARGET),
    (b"GET 1a:b", TARGET),
    (b"GET :b", TARGET),
    (b"GET a:#b", TARGET),
    (b"GET http://a@b/", TARGET),
    (b"GET http://a:b/", TARGET),
    (b"GET http://a#b", TARGET),
    (b"GET http://[::1", TARGET),
    (b"GET www.example.com", TARGET),
    (b"CONNECT www.example.com", TARGET),
    (b"CONNECT /", TARGET),
    (b"CONNECT http://a:80", TARGET),
    (b"CONNECT a:80/", TARGET),
    (b"CONNECT *", TARGET),
];

const BESIDE: Option<Reason> = Some(Reason::Body(FramingError::LengthBesideCoding));

const NOT_CHUNKED: Option<Reason> = Some(Reason::Body(FramingError::NotChunked));

const NOT_LAST: Option<Reason> = Some(Reason::Body(FramingError::ChunkedNotLast));

const NO_CODING: Option<Reason> = Some(Reason::Body(FramingError::InvalidCoding));

const DIFFER: Option<Reason> = Some(Reason::Body(FramingError::LengthsDiffer));

const NO_NUMBER: Option<Reason> = Some(Reason::Body(FramingError::LengthIsNoNumber));

const TOO_LARGE: Option<Reason> = Some(Reason::Body(FramingError::LengthTooLarge));

/// Fields after a Host field of an HTTP/1.1 request, and why the request is rejected (RFC 9112,
/// sections 6.1 and 6.3, and RFC 9110, section 8.6).
const FRAMINGS: &[(&[u8], Option<Reason>)] = &[
    (b"", None),
    (b"Content-Length: 42\r\n", None),
    (b"Content-Length: 0\r\n", None),
    (b"content-LENGTH: 42\r\nX: 43\r\nContent-Length:42\r\n", None),
    (b"Content-Length: 340282366920938463463374607431768211456\r\n", TOO_LARGE),
    (b"Content-Length: 42\r\nContent-Length: 43\r\n", DIFFER),
    (b"Content-Length: 42\r\nX: y\r\nCONTENT-LENGTH: 042\r\n", DIFFER),
    (b"Content-Length: 1\r\nCONTENT-length: 1\r\ncontent-length: a\r\n", DIFFER),
    (b"Content-Length: a\r\nContent-Length: b\r\n", DIFFER),
    (b"Content-Length: 42, 42\r\n", None),
    (b"Content-Length:\r\n", NO_NUMBER),
    (b"Content-Length: +42\r\n", NO_NUMBER),
    (b"Content-Length: -1\r\n", NO_NUMBER),
    (b"Content-Length: 0x2a\r\n", NO_NUMBER),
    (b"Content-Length: 4 2\r\n", NO_NUMBER),
    (b"Content-Length: ,4\r\n", DIFFER),
    (b"Content-Length: 4,\r\n", DIFFER),
    (b"Content-Length: 4,,4\r\n", DIFFER),
    (b"Content-Length: a\r\nContent-Length: a\r\n", NO_NUMBER),
    (b"Transfer-Encoding: chunked\r\n", None),
    (b"Transfer-Encoding: gzip, chunked\r\n", None),
    (b"transfer-encoding: GZIP ,\t\tChunKED\r\n", None),
    (b"Transfer-Encoding: gzip\r\nTransfer-Encoding: chunked\r\n", None),
    (b"Transfer-Encoding: chunked\r\nTransfer-Encoding:\r\n", None),
    (b"Transfer-Encoding: ,chunked, ,\r\nTransfer-Encoding: ,\r\n", None),
    (b"Transfer-Encoding: a;b=\"c, d\", chunked\r\n", None),
    (b"Transfer-Encoding: gzip\r\n", NOT_CHUNKED),
    (b"Transfer-Encoding: chunked, chunked\r\n", NOT_LAST),
    (b"Transfer-Encoding: chunked\r\nX: y\r\ntransfer-encoding: CHUNKED\r\n", NOT_LAST),
    (b"Transfer-Encoding: chunked, gzip\r\n", NOT_LAST),
    (b"Transfer-Encoding: chunked, gzip, chunked\r\n", NOT_LAST),
    (b"Transfer-Encoding: chunked ; a=b, chunked\r\n", NOT_LAST),
    (b"Transfer-Encoding: a b, chunked\r\n", NO_CODING),
    (b"Transfer-Encoding: chunked\r\nX: y\r\nTransfer-Encoding: gzip\r\n", NOT_LAST),
    (b"Transfer-Encoding: identity\r\n", NOT_CHUNKED),
    (b"Transfer-Encoding: xchunked\r\n", NOT_CHUNKED),
    (b"Transfer-Encoding: x chunked\r\n", NO_CODING),
    (b"Transfer-Encoding: chunke\r\n", NOT_CHUNKED),
    (b"Transfer-Encoding: chunked;a=b\r\n", NOT_CHUNKED),
    (b"Transfer-Encoding: a;b=\"c, chunked\"\r\n", NOT_CHUNKED),
    (b"Transfer-Encoding:\r\n", NOT_CHUNKED),
    (b"Transfer-Encoding: ,\r\n", NOT_CHUNKED),
    (b"Content-Length: 4\r\nTransfer-Encoding: chunked\r\n", BESIDE),
    (b"TRANSFER-ENCODING: gzip\r\ncontent-length: a\r\n", BESIDE),
    (b"X: Content-Length\r\nContent-Lengths: a\r\nTransfer-Encodings: a\r\n", None),
    (b"Host: b\r\nContent-Length: a\r\n", MANY_HOSTS),
];

/// Whitespace before a colon (section 5.1), and lone carriage returns (section 2.2): no heads.
const NO_HEADS: &[&[u8]] = &[
    b"GET / HTTP/1.1\r\nHost : a\r\n\r\n",
    b"GET / HTTP/1.1\r\nHost\t: a\r\n\r\n",
    b"GET / HTTP/1.1\r\nHost: a\r\nTransfer-Encoding : chunked\r\n\r\n",
    b"GET / HTTP/1.1\r\nHost: a\rb\r\n\r\n",
    b"GET / HTTP/1.1\r\nHost: a\r\r\n\r\n",
    b"GET / HTTP/1.1\r\nHost: a\r\n\r",
    b"GET /\r HTTP/1.1\r\nHost: a\r\n\r\n",
];

/// The reason to reject the request of a head.
fn reason_of(head: &Head<'_, Global>) -> Option<Reason> {
    match request_framing(&head.line, head.fields.as_slice()) {
        Ok(_) => None,
        Err(reason) => Some(reason),
    }
}

#[test]
fn request_framing_of_heads(rt: HostRuntime) {
    for (text, want) in HEADS {
        let mut input = *text;
        let head = read_head(rt.alloc(), &mut input);
        assert!(rt; head.is_ok_and(|it| reason_of(&it) == *want), "{text:?}");
    }
}

/// Checks the reason for which the request of a head is rejected.
fn refuses(rt: &impl Abort, alloc: Global, text: &[u8], want: Option<Reason>) {
    let mut input = text;
    let head = read_head(alloc, &mut input);
    assert!(rt; head.is_ok_and(|it| reason_of(&it) == want), "{text:?}");
}

/// Checks the reason for which the request of a head in parts is rejected.
fn refuses_parts(rt: &impl Abort, alloc: Global, parts: [&[u8]; 3], want: Option<Reason>) {
    let mut text = Vec::new(alloc);
    for part in parts {
        assert!(rt; text.extend_from_slice(part).is_ok());
    }
    refuses(rt, alloc, &text, want);
}

#[test]
fn request_framing_of_hosts(rt: HostRuntime) {
    for (host, want) in HOSTS {
        let parts = [b"GET / HTTP/1.1\r\nHost: ".as_slice(), *host, b"\r\n\r\n".as_slice()];
        refuses_parts(&rt, rt.alloc(), parts, *want);
    }
}

#[test]
fn request_framing_of_targets(rt: HostRuntime) {
    for (line, want) in TARGETS {
        let parts = [*line, b" HTTP/1.1\r\nHost: a".as_slice(), b"\r\n\r\n".as_slice()];
        refuses_parts(&rt, rt.alloc(), parts, *want);
    }
}

#[test]
fn request_framing_of_framings(rt: HostRuntime) {
    for (fields, want) in FRAMINGS {
        let parts = [b"POST / HTTP/1.1\r\nHost: a\r\n".as_slice(), *fields, b"\r\n".as_slice()];
        refuses_parts(&rt, rt.alloc(), parts, *want);
    }
}

#[test]
fn request_framing_of_a_coding_before_version_1_1(rt: HostRuntime) {
    let text = b"POST / HTTP/1.0\r\nTransfer-Encoding: chunked\r\n\r\n";
    let want = Some(Reason::Body(FramingError::CodingBeforeVersion));
    refuses(&rt, rt.alloc(), text, want);
}

#[test]
fn request_framing_of_no_host_comes_first(rt: HostRuntime) {
    let text = b"POST / HTTP/1.1\r\nContent-Length: a\r\nTransfer-Encoding: a\r\n\r\n";
    refuses(&rt, rt.alloc(), text, NO_HOST);
    let text = b"POST / HTTP/1.0\r\nContent-Length: a\r\n\r\n";
    refuses(&rt, rt.alloc(), text, Some(Reason::Body(FramingError::LengthIsNoNumber)));
}

#[test]
fn read_head_of_none(rt: HostRuntime) {
    for text in NO_HEADS {
        let mut input = *text;
        assert!(rt; read_head(rt.alloc(), &mut input).is_err(), "{text:?}");
    }
}

/// Field lines, each with its value and how many bytes follow it; or none.
const FIELD_LINES: &[(&[u8], Option<(&[u8], &[u8], usize)>)] = &[
    (b"Host: a\r\n", Some((b"Host", b"a", 0))),
    (b"Host:a:b \t\r\nX: y\r\n", Some((b"Host", b"a:b", 6))),
    (b"X:\r\n\r\n", Some((b"X", b"", 2))),
    (b"Host : a\r\n", None),
    (b"Host\t: a\r\n", None),
    (b" Host: a\r\n", None),
    (b"Host: a\rb\r\n", None),
    (b"Ho\rst: a\r\n", None),
    (b"Host: a\r\r\n", None),
    (b": a\r\n", None),
];

#[test]
fn read_field_line_of_lines(rt: HostRuntime) {
    for (text, want) in FIELD_LINES {
        let mut input = *text;
        let found = match read_field_line(&mut input) {
            Ok(field) => Some((field.name, field.value, input.len())),
            Err(_) => None,
        };
        assert!(rt; found == *want, "{text:?}");
    }
}
