//! Tables of response heads, and of heads and records whose end is found incrementally.
use pergidau::csv::{Extent, LineEnd, Size};
use pergidau::http::{self, Field, HeadError, HeadExtent};
use pergidau::{Error, RequiredSize};

/// The response of RFC 9110, section 3.9, with some of its fields and the start of its content.
const HELLO: &[u8] = b"HTTP/1.1 200 OK\r\nDate: Mon, 27 Jul 2009 12:28:53 GMT\r\n\
Server: Apache\r\nContent-Length: 51\r\n\r\nHello";

#[test]
fn http_response_head_of_responses() {
    let want: [(&[u8], &[u8]); 3] = [
        (b"Date", b"Mon, 27 Jul 2009 12:28:53 GMT"),
        (b"Server", b"Apache"),
        (b"Content-Length", b"51"),
    ];
    let mut fields = [Field::default(); 4];
    let head = http::response_head(HELLO, &mut fields).unwrap();
    assert_eq!((head.status(), head.reason()), (200, &b"OK"[..]));
    assert_eq!(head.version(), (1, 1));
    assert_eq!(head.rest(), b"Hello");
    assert_eq!(head.fields().collect::<Vec<_>>(), want);
    let whole = HELLO.len() - 5;
    for end in 0..whole {
        let piece = http::response_head_partial(&HELLO[..end], &mut fields);
        assert_eq!(piece.unwrap_err(), Error::Incomplete, "{end}");
        let short = http::response_head(&HELLO[..end], &mut fields).unwrap_err();
        let reason = HeadError::Incomplete;
        assert_eq!(short, Error::InvalidHead { offset: end, reason }, "{end}");
    }
    let head = http::response_head_partial(&HELLO[..whole], &mut fields).unwrap();
    assert_eq!((head.status(), head.fields().len()), (200, 3));
    let small = http::response_head(HELLO, &mut fields[..2]).unwrap_err();
    assert_eq!(small.to_string(), "buffer too small: 3 entries required");
    type Row = (&'static [u8], (u8, u8), u16, &'static [u8]);
    let rows: [Row; 4] = [
        (b"HTTP/1.1 404 Not Found\r\n\r\n", (1, 1), 404, b"Not Found"),
        (b"HTTP/1.0 200 \r\n\r\n", (1, 0), 200, b""),
        (b"HTTP/2.9 999\r\n\r\n", (2, 9), 999, b""),
        (b"HTTP/0.1 000 \xe9\t\r\n\r\n", (0, 1), 0, b"\xe9\t"),
    ];
    for (bytes, version, status, reason) in rows {
        let head = http::response_head(bytes, &mut []).unwrap();
        assert_eq!((head.version(), head.status(), head.reason()), (version, status, reason));
        assert_eq!(head.fields().count(), 0);
    }
    for (bytes, offset, reason) in [
        (&b"GET / HTTP/1.1\r\n\r\n"[..], 0, HeadError::Version),
        (b"HTTP/1.1\r\n\r\n", 8, HeadError::StatusCode),
        (b"HTTP/1.1 20 OK\r\n\r\n", 11, HeadError::StatusCode),
        (b"HTTP/1.1 200OK\r\n\r\n", 12, HeadError::StatusCode),
        (b"HTTP/1.1 200 O\0K\r\n\r\n", 14, HeadError::Value),
        (b"HTTP/1.1 200 OK\r\nX : 1\r\n\r\n", 18, HeadError::Colon),
    ] {
        let never = Error::InvalidHead { offset, reason };
        let mut extent = HeadExtent::of_response();
        for cut in 0..=bytes.len() {
            let want = if cut > offset { never } else { Error::Incomplete };
            let error = http::response_head_partial(&bytes[..cut], &mut []).unwrap_err();
            assert_eq!(error, want, "{bytes:?} {cut}");
            let end = extent.advance(&bytes[..cut]);
            assert_eq!(end, if cut > offset { Err(never) } else { Ok(None) }, "{bytes:?} {cut}");
        }
        assert_eq!(http::response_head(bytes, &mut []).unwrap_err(), never, "{bytes:?}");
    }
}

#[test]
fn http_field_lines_of_trailers() {
    let text = b"Digest: a=b\r\nX:\r\n\r\nGET";
    let mut fields = [Field::default(); 3];
    let lines = http::field_lines(text, &mut fields).unwrap();
    assert!(lines.fields().eq([(&b"Digest"[..], &b"a=b"[..]), (b"X", b"")]));
    assert_eq!((lines.field("x"), lines.field("y")), (Some(&b""[..]), None));
    assert_eq!(lines.rest(), b"GET");
    assert_eq!(http::field_lines(b"\r\n\r\n", &mut []).unwrap().rest(), b"\r\n");
    let small = http::field_lines(text, &mut fields[..1]).unwrap_err();
    assert_eq!(small, Error::BufferTooSmall(RequiredSize { entries: 2, bytes: 0 }));
    for end in 0..text.len() - 3 {
        let partial = http::field_lines(&text[..end], &mut fields).unwrap_err();
        assert_eq!(partial, Error::Incomplete);
    }
    for (bytes, offset, reason) in [
        (&b"\n"[..], 0, HeadError::FieldName),
        (b"GET / HTTP/1.1\r\n\r\n", 3, HeadError::Colon),
        (b"a: b\n\r\n", 4, HeadError::Value),
        (b"a: b\r\n\ra", 7, HeadError::LineEnding),
    ] {
        let never = Error::InvalidHead { offset, reason };
        assert_eq!(http::field_lines(bytes, &mut []).unwrap_err(), never);
        assert_eq!(HeadExtent::of_field_lines().advance(bytes), Err(never));
    }
}

#[test]
fn http_head_extent_of_pieces() {
    let rows: [(HeadExtent, &[u8], usize); 7] = [
        (HeadExtent::new(), b"A b HTTP/1.1\r\n\r\n\r\n", 16),
        (
            HeadExtent::new(),
            b"GET /hello.txt HTTP/1.1\r\nHost: www.example.com\r\n\r\nbody",
            50,
        ),
        (HeadExtent::new(), b"PUT /x HTTP/1.1\r\nX: 1\r\nX:\t2 \r\nY:\r\n\r\nX: 3\r\n\r\n", 36),
        (HeadExtent::of_response(), HELLO, HELLO.len() - 5),
        (HeadExtent::of_response(), b"HTTP/2.9 999\r\n\r\n\r\n", 16),
        (HeadExtent::of_field_lines(), b"\r\n\r\n", 2),
        (HeadExtent::of_field_lines(), b"Digest: a=b\r\nX:\r\n\r\nGET", 19),
    ];
    for (start, bytes, whole) in rows {
        for step in 1..=bytes.len() {
            let (mut extent, mut have) = (start.clone(), 0);
            let end = loop {
                have = bytes.len().min(have + step);
                match extent.advance(&bytes[..have]).unwrap() {
                    Some(end) => break end,
                    None => assert!(have < whole, "{bytes:?} {step}"),
                }
            };
            assert_eq!(end, whole, "{bytes:?} {step}");
            assert!(have - end < step);
        }
    }
    // The state records the bytes that were scanned.
    let mut extent = HeadExtent::new();
    assert_eq!(extent.advance(b"GET /"), Ok(None));
    assert_ne!(extent, HeadExtent::new());
    assert_ne!(HeadExtent::of_response(), HeadExtent::new());
    for (bytes, begins, reason) in [
        (&b"GET  / HTTP/1.1\r\n"[..], 4, HeadError::Target),
        (b"A b HTTP/1.1\n", 12, HeadError::LineEnding),
        (b"(", 0, HeadError::Method),
    ] {
        let mut extent = HeadExtent::new();
        for have in 0..=begins {
            assert_eq!(extent.advance(&bytes[..have]), Ok(None), "{bytes:?} {have}");
        }
        for have in begins + 1..=bytes.len() {
            let refused = extent.advance(&bytes[..have]).unwrap_err();
            assert_eq!(refused, Error::InvalidHead { offset: begins, reason }, "{bytes:?}");
            assert_eq!(refused.offset(), Some(begins), "{bytes:?}");
        }
    }
}

#[test]
fn csv_extent_of_pieces() {
    let rows: [(&[u8], LineEnd, usize, usize, usize); 6] = [
        (b"a,b\r\nc", LineEnd::Either, 5, 2, 2),
        (b"a,b\nc", LineEnd::Either, 4, 2, 2),
        (b"aaa,bbb,ccc\r\nzzz", LineEnd::CrLf, 13, 3, 9),
        (b"\"aaa\",\"b\r\nbb\",\"\"\r\n", LineEnd::CrLf, 18, 3, 8),
        (b"\"b\"\"bb\"\n,", LineEnd::Lf, 8, 1, 4),
        (b"\n\n", LineEnd::Lf, 1, 1, 0),
    ];
    for (bytes, end, length, entries, text) in rows {
        let want = Size { length, required: RequiredSize { entries, bytes: text } };
        for step in 1..=bytes.len() {
            let (mut extent, mut have) = (Extent::new(end), 0);
            let size = loop {
                have = bytes.len().min(have + step);
                match extent.advance(&bytes[..have]).unwrap() {
                    Some(size) => break size,
                    None => assert!(have < length, "{bytes:?} {step}"),
                }
            };
            assert_eq!(size, want, "{bytes:?} {step}");
        }
    }
    // The state records the bytes that were scanned.
    let mut extent = Extent::new(LineEnd::Lf);
    assert_eq!(extent.advance(b"a,\"b"), Ok(None));
    assert_ne!(extent, Extent::new(LineEnd::Lf));
    for (bytes, end, begins) in [
        (&b"x\"y,z"[..], LineEnd::CrLf, 1),
        (b"\"a\"b\r\n", LineEnd::CrLf, 3),
        (b"a\r\n", LineEnd::Lf, 1),
    ] {
        let mut extent = Extent::new(end);
        assert_eq!(extent.advance(&bytes[..begins]), Ok(None), "{bytes:?}");
        let refused = extent.advance(bytes).unwrap_err();
        assert_eq!(refused.offset(), Some(begins), "{bytes:?}");
    }
}

#[test]
fn http_fields_of_a_name() {
    let mut fields = Vec::new();
    let text = b"GET / HTTP/1.1\r\nHost: a\r\nVia: b\r\nVIA: c\r\n\r\n";
    let head = http::head_grown(text, &mut fields).unwrap();
    assert_eq!((head.field("hOST"), head.field("via")), (Some(&b"a"[..]), Some(&b"b"[..])));
    assert_eq!((head.field("Hos"), head.field("Hosts"), head.field("")), (None, None, None));
    assert_eq!(head.fields().len(), 3);
    let error = http::head_grown(b"GET /\r", &mut fields).unwrap_err();
    assert_eq!(error, Error::InvalidHead { offset: 5, reason: HeadError::Target });
    let head = http::response_head_grown(HELLO, &mut fields).unwrap();
    assert_eq!((head.field("SERVER"), head.fields().len()), (Some(&b"Apache"[..]), 3));
}

/// The rules of RFC 9112, section 6.3, in order.
#[test]
fn http_bodies_of_messages() {
    use http::{Body, BodyError};
    let body = |fields: &str| {
        let text = format!("POST / HTTP/1.1\r\nHost: a\r\n{fields}\r\n");
        let mut places = Vec::new();
        http::head_grown(text.as_bytes(), &mut places).unwrap().body()
    };
    let rows = [
        ("", Ok(Body::None)),
        ("Transfer-Encoding: gzip, Chunked\r\n", Ok(Body::Chunked)),
        ("content-length: 42\r\n", Ok(Body::Length(42))),
        ("Content-Length: 42, 42\r\n", Ok(Body::Length(42))),
        ("Content-Length: 18446744073709551615\r\n", Ok(Body::Length(u64::MAX))),
        ("Content-Length: 18446744073709551616\r\n", Err(BodyError::LengthTooLarge)),
        ("Content-Length: 42\r\nContent-Length: 042\r\n", Err(BodyError::LengthsDiffer)),
        ("Content-Length: +42\r\n", Err(BodyError::LengthNotANumber)),
        ("Content-Length: 1\r\nTransfer-Encoding: chunked\r\n", Err(BodyError::LengthAndCoding)),
        ("Transfer-Encoding: chunked, gzip\r\n", Err(BodyError::ChunkedNotLast)),
        ("Transfer-Encoding: gzip\r\n", Err(BodyError::NotChunked)),
        ("Transfer-Encoding: a;b=\",\", chunked\r\n", Ok(Body::Chunked)),
        ("Transfer-Encoding: a b, chunked\r\n", Err(BodyError::InvalidCoding)),
        ("Host: a\r\n", Err(BodyError::ManyHosts)),
    ];
    for (fields, want) in rows {
        assert_eq!(body(fields), want, "{fields}");
    }
    assert_eq!(http::request_body(b"GET / HTTP/1.1\r\n\r\n"), Err(BodyError::MissingHost));
    assert_eq!(http::request_body(b"GET / HTTP/1.0\r\n\r\n"), Ok(Body::None));
    let host = b"GET / HTTP/1.1\r\nHost: a, b\r\n\r\n";
    assert_eq!(http::request_body(host), Err(BodyError::InvalidHost));
    let target = b"GET /a#b HTTP/1.1\r\nHost: a\r\n\r\n";
    assert_eq!(http::request_body(target), Err(BodyError::InvalidTarget));
    let old = b"GET / HTTP/1.0\r\nTransfer-Encoding: chunked\r\n\r\n";
    assert_eq!(http::request_body(old), Err(BodyError::CodingBeforeVersion));
    assert_eq!(http::request_body(b"GET / HTTP/1.1\r\nHost : a\r\n\r\n"), Err(BodyError::Head));
    let mut places = Vec::new();
    let head = http::response_head_grown(HELLO, &mut places).unwrap();
    assert_eq!(head.body(b"GET"), Ok(Body::Length(51)));
    assert_eq!(head.body(b"HEAD"), Ok(Body::None));
    assert_eq!(head.body(b"CONNECT"), Ok(Body::Tunnel));
    let rows: [(&[u8], _); 5] = [
        (b"HTTP/1.1 204 \r\nContent-Length: 1\r\n\r\n", Ok(Body::None)),
        (b"HTTP/1.1 304 \r\n\r\n", Ok(Body::None)),
        (b"HTTP/1.1 200 \r\n\r\n", Ok(Body::UntilClose)),
        (b"HTTP/1.1 200 \r\nTransfer-Encoding: gzip\r\n\r\n", Ok(Body::UntilClose)),
        (b"HTTP/1.1 200 \r\nTransfer-Encoding: chunked\r\n\r\n", Ok(Body::Chunked)),
    ];
    for (text, want) in rows {
        assert_eq!(http::response_body(b"GET", text), want);
    }
    assert_eq!(http::response_body(b"GET", b"HTTP/1.1\r\n\r\n"), Err(BodyError::Head));
    assert_eq!(BodyError::LengthsDiffer.to_string(), "Content-Length values differ");
}

/// What is rejected, by RFC 9112, section 3.2, and whether the connection persists, by section 9.3.
#[test]
fn http_framings_of_heads() {
    use http::{Body, BodyError};
    type Row = (&'static str, Result<Body, BodyError>, Option<&'static str>, bool);
    let rows: [Row; 9] = [
        ("GET / HTTP/1.1\r\nHost: a\r\n\r\n", Ok(Body::None), None, true),
        ("GET / HTTP/1.0\r\nHost: a\r\n\r\n", Ok(Body::None), None, false),
        ("GET / HTTP/1.0\r\nConnection: Keep-Alive\r\n\r\n", Ok(Body::None), None, true),
        ("GET / HTTP/1.1\r\nHost: a\r\nConnection: te, CLOSE\r\n\r\n", Ok(Body::None), None, false),
        ("GET / HTTP/1.1\r\nHost: a\r\nHOST: a\r\n\r\n", Err(BodyError::ManyHosts), Some("HOST"), false),
        ("GET / HTTP/1.1\r\nHost: a b \r\n\r\n", Err(BodyError::InvalidHost), Some("a b"), false),
        ("GET /# HTTP/1.1\r\nHost: a\r\n\r\n", Err(BodyError::InvalidTarget), Some("/#"), false),
        ("GET / HTTP/1.1\r\nX: y\r\n\r\n", Err(BodyError::MissingHost), None, false),
        (
            "GET / HTTP/1.1\r\nHost: a\r\nContent-Length: b\r\n\r\n",
            Err(BodyError::LengthNotANumber),
            None,
            false,
        ),
    ];
    for (text, body, rejected, persists) in rows {
        let mut fields = Vec::new();
        let found = http::head_grown(text.as_bytes(), &mut fields).unwrap().framing();
        assert_eq!((found.body, found.persists), (body, persists), "{text}");
        assert_eq!(found.rejected, rejected.map(str::as_bytes), "{text}");
    }
    let mut fields = Vec::new();
    let head = http::response_head_grown(HELLO, &mut fields).unwrap();
    assert_eq!((head.framing(b"GET").body, head.framing(b"GET").persists), (Ok(Body::Length(51)), true));
    assert!(!head.framing(b"CONNECT").persists);
    let text = b"HTTP/1.1 200 OK\r\n\r\n";
    let found = http::response_head_grown(text, &mut fields).unwrap().framing(b"GET");
    assert_eq!((found.body, found.persists, found.rejected), (Ok(Body::UntilClose), false, None));
}
