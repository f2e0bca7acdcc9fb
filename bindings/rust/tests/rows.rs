//! Tables of the readers' tests, from Rust.
// (rows of tables are tuples)
#![allow(clippy::type_complexity)]
use pergidau::csv::{self, Dialect, LineEnd};
use pergidau::http::{self, Chunked, ChunkedError, Field, HeadError, Step};
use pergidau::pairs::{self, Entry};
use pergidau::json::{self, Kind, Value};
use pergidau::resp::{self, Extent, Protocol, Reply};
use pergidau::{calc, Error, Position, RequiredSize, Span, MAX_DEPTH};

fn invalid(offset: usize) -> Error {
    Error::Invalid(Some(offset))
}

#[test]
fn calc_value_of_formulas() {
    let rows = [
        (" 2 + 3 * 4 ", Ok(14)),
        ("2^3^2", Ok(512)),
        ("-2^2", Ok(4)),
        ("7%-3", Ok(1)),
        ("-7%3", Ok(-1)),
        ("20!", Ok(2432902008176640000)),
        ("1+1=2", Ok(1)),
        ("1/0", Err(invalid(3))),
        ("1 2", Err(invalid(2))),
        ("", Err(invalid(0))),
        ("2^63", Err(invalid(4))),
        ("1=2=1", Err(invalid(3))),
        ("-2^63", Ok(i64::MIN)),
        ("-2^63 % -1", Err(invalid(10))),
    ];
    for (text, want) in rows {
        assert_eq!(calc::value(text), want, "{text}");
    }
}

#[test]
fn calc_value_of_deep_formulas() {
    assert_eq!(calc::value(&("-".repeat(20_000) + "1")), Ok(1));
}

#[test]
fn pairs_of_lines() {
    let rows: [(&[u8], Result<(&[u8], &[u8]), Error>); 7] = [
        (b"key=value\n", Ok((b"key", b"value"))),
        (b"a=", Ok((b"a", b""))),
        (b"a==b", Ok((b"a", b"=b"))),
        (b"a=\xff", Ok((b"a", b"\xff"))),
        (b"a=b\nc", Err(invalid(4))),
        (b"key", Err(invalid(3))),
        (b"", Err(invalid(0))),
    ];
    for (line, want) in rows {
        assert_eq!(pairs::line(line), want, "{line:?}");
    }
}

#[test]
fn json_of_texts() {
    for text in ["null", " [1, -2.5e3, {\"a\": \"\\u00e9\"}] ", "\"\u{e9}\"", "\"\\ud83d\\ude00\""] {
        assert_eq!(json::check(text.as_bytes(), 2), Ok(()), "{text}");
    }
    let rows = [
        ("\"\\ud800\"", 7), ("\"\\udead\"", 4), ("[\"\\ud83d\\u0041\"]", 10),
        ("{\"\\ude00\\ud83d\": 1}", 5), ("", 0), ("nul", 3), ("[1,]", 3), ("01", 1), ("{\"a\" 1}", 5),
        ("1 2", 2),
    ];
    for (text, offset) in rows {
        assert_eq!(json::check(text.as_bytes(), 2), Err(Error::Invalid(Some(offset))), "{text}");
    }
    assert_eq!(json::check(b"[[[]]]", 2), Err(Error::TooDeep(2)));
    assert_eq!(json::check(b"\"\xff\"", 0), Err(Error::InvalidUtf8));
    assert_eq!(json::check(b"1", MAX_DEPTH + 1), Err(Error::MaxDepthTooLarge));
    assert_eq!(json::longest(b"-1.5e3 ", 0), Ok((&b"-1.5e3"[..], &b" "[..])));
    assert_eq!(json::longest(b"[ \t\r\n]]", 1), Ok((&b"[ \t\r\n]"[..], &b"]"[..])));
    assert_eq!(json::longest(b" 1", 1), Err(Error::Invalid(None)));
    assert_eq!(json::longest(b"\"\\ud800\"", 1), Err(Error::Invalid(None)));
    let deep = "[".repeat(MAX_DEPTH) + &"]".repeat(MAX_DEPTH);
    assert_eq!(json::check(deep.as_bytes(), MAX_DEPTH), Ok(()));
    assert_eq!(json::check(deep.as_bytes(), MAX_DEPTH - 1), Err(Error::TooDeep(MAX_DEPTH - 1)));
}

/// Collects the texts of all values other than arrays and objects, in order, and the names, each
/// with a colon.
fn walk<'i>(value: Value<'i>, into: &mut Vec<String>) {
    match value.kind() {
        Kind::Array => value.elements().for_each(|it| walk(it, into)),
        Kind::Object => value.members().for_each(|(name, it)| {
            into.push(format!("{name}:"));
            walk(it, into);
        }),
        _ => into.push(value.text().to_string()),
    }
}

#[test]
fn json_walks() {
    let rows: [(&str, &[&str]); 8] = [
        ("null", &["null"]),
        (" -1.5e3 ", &["-1.5e3"]),
        ("[]", &[]),
        (" [ 1 ,2, [true , []], {} ] ", &["1", "2", "true"]),
        ("{\"a\": [false], \"b\" :\"c,]\"}", &["a:", "false", "b:", "\"c,]\""]),
        ("{\"a\\\"\": {\"\": 0}}", &["a\\\":", ":", "0"]),
        ("[[1], [[2]], 3]", &["1", "2", "3"]),
        ("[\"\u{e9}\", {\"\u{1F600}\": 1}]", &["\"\u{e9}\"", "\u{1F600}:", "1"]),
    ];
    for (text, want) in rows {
        let mut got = Vec::new();
        walk(json::parse(text, 3).unwrap(), &mut got);
        assert_eq!(got, want, "{text}");
    }
    let kinds = json::parse("[null, false, true, 0, \"\", [], {}]", 2).unwrap();
    let want = [
        Kind::Null, Kind::False, Kind::True, Kind::Number, Kind::String,
        Kind::Array, Kind::Object,
    ];
    assert_eq!(kinds.elements().map(|it| it.kind()).collect::<Vec<_>>(), want);
    assert_eq!(kinds.members().count(), 0);
    let object = json::parse("{\"a\": [1], \"b\": {}}", 2).unwrap();
    assert_eq!(object.elements().count(), 0);
    assert_eq!(object.members().count(), 2);
    assert_eq!(json::parse("\"[1]\"", 0).unwrap().elements().count(), 0);
    assert_eq!(json::parse("1", 0).unwrap().elements().count(), 0);
    assert_eq!(json::parse("[1,]", 9), Err(Error::Invalid(Some(3))));
    assert_eq!(json::parse("", 9), Err(Error::Invalid(Some(0))));
    assert_eq!(json::parse("1", MAX_DEPTH + 1), Err(Error::MaxDepthTooLarge));
    let deep = "[".repeat(MAX_DEPTH) + &"]".repeat(MAX_DEPTH);
    let (mut value, mut levels) = (json::parse(&deep, MAX_DEPTH).unwrap(), 1);
    while let Some(inner) = value.elements().next() {
        (value, levels) = (inner, levels + 1);
    }
    assert_eq!(levels, MAX_DEPTH);
}

#[test]
fn pairs_in_sections() {
    let (mut text, mut entries) = ([0; 64], [Entry::default(); 8]);
    let bytes = b"; c\r\n[a]\nx = 1 ; one\ny=\n[]\n[b c]x=2\nx=\xc3\xa9";
    let document = pairs::document(bytes, &mut text, &mut entries).unwrap();
    let want: [(&[u8], &[(&[u8], &[u8])]); 3] = [
        (b"a", &[(b"x", b"1"), (b"y", b"")]),
        (b"", &[]),
        (b"b c", &[(b"x", b"2"), (b"x", b"\xc3\xa9")]),
    ];
    assert_eq!(document.sections().count(), want.len());
    for (section, (name, pairs)) in document.sections().zip(want) {
        assert_eq!(section.name(), name);
        assert_eq!(section.pairs().collect::<Vec<_>>(), pairs);
    }
    let empty = pairs::document(b" \n;x", &mut [], &mut []).unwrap();
    assert_eq!(empty.sections().count(), 0);
    let small = pairs::document(bytes, &mut text[..10], &mut entries).unwrap_err();
    assert_eq!(small.to_string(), "buffer too small: 7 entries and 12 bytes required");
    let small = pairs::document(bytes, &mut text[..12], &mut entries[..6]).unwrap_err();
    assert_eq!(small.to_string(), "buffer too small: 7 entries and 12 bytes required");
    assert!(pairs::document(bytes, &mut text[..12], &mut entries[..7]).is_ok());
    for (bytes, offset) in [(&b"x=1"[..], 0), (b"[a]\nx\n", 4), (b"[a]\nx=1\n [b", 9)] {
        let refused = pairs::document(bytes, &mut text, &mut entries).unwrap_err();
        assert_eq!(refused, invalid(offset), "{bytes:?}");
    }
}

/// The request of RFC 9110, section 3.9, and the start of a next one.
const HELLO: &[u8] = b"GET /hello.txt HTTP/1.1\r\nUser-Agent: curl/7.64.1\r\n\
Host: www.example.com\r\nAccept-Language: en, mi\r\n\r\nGET";

#[test]
fn http_head_of_requests() {
    let want: [(&[u8], &[u8]); 3] = [
        (b"User-Agent", b"curl/7.64.1"),
        (b"Host", b"www.example.com"),
        (b"Accept-Language", b"en, mi"),
    ];
    let mut fields = [Field::default(); 3];
    let head = http::head(HELLO, &mut fields).unwrap();
    assert_eq!(head.method(), b"GET");
    assert_eq!(head.target(), b"/hello.txt");
    assert_eq!(head.version(), (1, 1));
    assert_eq!(head.rest(), b"GET");
    assert_eq!(head.fields().collect::<Vec<_>>(), want);
    let whole = HELLO.len() - 3;
    for end in 0..whole {
        let piece = http::head_partial(&HELLO[..end], &mut fields);
        assert_eq!(piece.unwrap_err(), Error::Incomplete, "{end}");
        let short = http::head(&HELLO[..end], &mut fields).unwrap_err();
        let reason = HeadError::Incomplete;
        assert_eq!(short, Error::InvalidHead { offset: end, reason }, "{end}");
    }
    assert!(http::head_partial(&HELLO[..whole], &mut fields).is_ok());
    let small = http::head(HELLO, &mut fields[..2]).unwrap_err();
    assert_eq!(small.to_string(), "buffer too small: 3 entries required");
    for (request, version) in [(&b"A b HTTP/1.0\r\n\r\n"[..], (1, 0)), (b"A b HTTP/2.9\r\n\r\n", (2, 9))] {
        assert_eq!(http::head(request, &mut []).unwrap().version(), version);
        assert_eq!(http::head_partial(request, &mut []).unwrap().version(), version);
    }
    let never = http::head_partial(b"GET  / HTTP/1.1\r\n", &mut fields);
    let never = never.unwrap_err();
    assert_eq!(never, Error::InvalidHead { offset: 4, reason: HeadError::Target });
    assert_eq!(never.to_string(), "expected a request target and a space at offset 4");
}

#[test]
fn csv_record_of_lines() {
    let rows: [(&[u8], LineEnd, &[&[u8]], &[u8]); 6] = [
        (b"aaa,bbb,ccc\r\nzzz", LineEnd::CrLf, &[b"aaa", b"bbb", b"ccc"], b"zzz"),
        (b"\"aaa\",\"b\r\nbb\",\"ccc\"", LineEnd::CrLf, &[b"aaa", b"b\r\nbb", b"ccc"], b""),
        (b"\"b\"\"bb\"\n,", LineEnd::Lf, &[b"b\"bb"], b","),
        (b"\n\n", LineEnd::Lf, &[b""], b"\n"),
        (b",", LineEnd::Lf, &[b"", b""], b""),
        (b"\xff,\0", LineEnd::CrLf, &[b"\xff", b"\0"], b""),
    ];
    for (bytes, end, want, rest) in rows {
        let (mut text, mut fields) = ([0; 16], [Span::default(); 4]);
        let record = csv::record(bytes, end, &mut text, &mut fields).unwrap();
        assert_eq!(record.fields().collect::<Vec<_>>(), want, "{bytes:?}");
        assert_eq!(record.rest(), rest, "{bytes:?}");
        assert_eq!(record.get(want.len() - 1), want.last().copied());
        assert_eq!(record.get(want.len()), None);
    }
    let refused: [(&[u8], usize); 5] =
        [(b"", 0), (b"a\"", 1), (b"\"a", 2), (b"\"a\"b", 3), (b"a\rb", 2)];
    for (bytes, offset) in refused {
        let record = csv::record(bytes, LineEnd::CrLf, &mut [], &mut []);
        assert_eq!(record.unwrap_err().offset(), Some(offset), "{bytes:?}");
    }
    let (mut text, mut fields) = ([0; 3], [Span::default(); 2]);
    let small = csv::record(b"ab,cd", LineEnd::Lf, &mut text, &mut fields).unwrap_err();
    assert_eq!(small.to_string(), "buffer too small: 2 entries and 4 bytes required");
}

/// The standard dialect and the default are RFC 4180's; other bytes and line endings are chosen.
#[test]
fn csv_record_of_dialects() {
    let standard = Dialect::standard();
    assert_eq!(standard, Dialect::default());
    assert_eq!(standard.line_end(LineEnd::Lf), LineEnd::Lf.into());
    let quotes = standard.quote(b'\'').delimiter(b';').line_end(LineEnd::Either);
    let rows: [(&[u8], Dialect, &[&[u8]], &[u8]); 6] = [
        (b"a,\"b\"\r\nc", standard, &[b"a", b"b"], b"c"),
        (b"a,b\tc\n", standard.delimiter(b'\t').line_end(LineEnd::Lf), &[b"a,b", b"c"], b""),
        (b"a;'b''\n;';\r\n\n", quotes, &[b"a", b"b'\n;", b""], b"\n"),
        (b"a;\"\n\r\n", quotes, &[b"a", b"\""], b"\r\n"),
        (b"a,b\nc", LineEnd::Either.into(), &[b"a", b"b"], b"c"),
        (b"\0\xff,\xff", standard.delimiter(0).quote(b'a'), &[b"", b"\xff,\xff"], b""),
    ];
    for (bytes, dialect, want, rest) in rows {
        let (mut text, mut fields) = ([0; 16], [Span::default(); 4]);
        let record = csv::record(bytes, dialect, &mut text, &mut fields).unwrap();
        assert_eq!(record.fields().collect::<Vec<_>>(), want, "{bytes:?}");
        assert_eq!(record.rest(), rest, "{bytes:?}");
    }
    for (bytes, offset) in [(&b"a;b'"[..], 3), (b"a;'b'c", 5), (b"a\rb", 2)] {
        let refused = csv::record_partial(bytes, quotes, &mut [], &mut []).unwrap_err();
        assert_eq!(refused, invalid(offset), "{bytes:?}");
    }
    for none in [standard.quote(b','), standard.delimiter(b'\r'), standard.quote(b'\n')] {
        let (mut text, mut fields) = ([0; 16], [Span::default(); 4]);
        let refused = csv::record(b"a", none, &mut text, &mut fields).unwrap_err();
        assert_eq!(refused, Error::InvalidDialect);
        assert!(refused.to_string().starts_with("impossible dialect"));
        let refused = csv::record_partial(b"a", none, &mut text, &mut fields).unwrap_err();
        assert_eq!(refused, Error::InvalidDialect);
        assert_eq!(csv::Extent::new(none).advance(b"a"), Err(Error::InvalidDialect));
        let all: Vec<_> = csv::records(b"a\nb\n", none).collect();
        assert_eq!(all, [Err(Error::InvalidDialect)]);
    }
    assert_eq!(csv::records(b"a;b\r\n\nc\n", quotes).count(), 3);
}

#[test]
fn csv_record_of_pieces() {
    let (mut text, mut fields) = ([0; 16], [Span::default(); 4]);
    let bytes = b"a,\"b\r\n\"\r\nc";
    for end in 0..9 {
        let piece = csv::record_partial(&bytes[..end], LineEnd::CrLf, &mut text, &mut fields);
        assert_eq!(piece.unwrap_err(), Error::Incomplete, "{end}");
    }
    for end in 9..=bytes.len() {
        let piece = csv::record_partial(&bytes[..end], LineEnd::CrLf, &mut text, &mut fields);
        let record = piece.unwrap();
        assert_eq!(record.fields().collect::<Vec<_>>(), [&b"a"[..], b"b\r\n"]);
        assert_eq!(record.rest(), &bytes[9..end]);
    }
}

/// The bytes before the first invalid byte are a prefix of a record; with that byte they are not.
#[test]
fn csv_record_of_pieces_is_refused_where_none_goes_on() {
    let rows: [(&[u8], LineEnd, usize); 6] = [
        (b"x\"y,z", LineEnd::CrLf, 1),
        (b"\"a\"b\r\n", LineEnd::CrLf, 3),
        (b"a\nb\r\n", LineEnd::CrLf, 1),
        (b"a\rb", LineEnd::CrLf, 2),
        (b"a\r\n", LineEnd::Lf, 1),
        (b"a,\"\"\"\",\"", LineEnd::Lf, 8),
    ];
    for (bytes, end, begins) in rows {
        for cut in 0..=bytes.len() {
            let piece = csv::record_partial(&bytes[..cut], end, &mut [], &mut []);
            let error = piece.unwrap_err();
            assert_eq!(error.offset(), (cut > begins).then_some(begins), "{bytes:?} {cut}");
            assert!(cut > begins || error == Error::Incomplete, "{bytes:?} {cut}");
        }
    }
}

#[test]
fn csv_records_of_a_document() {
    let document = b"a,b\r\n\"1\r\n2\",\r\nlong enough for more room,x,y\r\n";
    let records: Result<Vec<_>, _> = csv::records(document, LineEnd::CrLf).collect();
    let want: [&[&[u8]]; 3] =
        [&[b"a", b"b"], &[b"1\r\n2", b""], &[b"long enough for more room", b"x", b"y"]];
    assert_eq!(records.unwrap(), want);
    let mut refused = csv::records(b"a\r\nb\rc\r\n", LineEnd::CrLf);
    assert_eq!(refused.next(), Some(Ok(vec![b"a".to_vec()])));
    assert_eq!(refused.next(), Some(Err(invalid(5))));
    assert_eq!(refused.next(), None);
    assert_eq!(csv::records(b"", LineEnd::Lf).count(), 0);
    let mut lent = csv::records(b"a,b\nc\"\n", LineEnd::Lf);
    let fields: Vec<_> = lent.next_record().unwrap().unwrap().fields().map(<[u8]>::to_vec).collect();
    assert_eq!(fields, [b"a", b"b"]);
    assert_eq!(lent.next_record().unwrap().unwrap_err(), invalid(5));
    assert!(lent.next_record().is_none());
}

#[test]
fn resp_extent_of_pieces() {
    let rows: [(&[u8], usize); 8] = [
        (b"+OK\r\n", 5),
        (b"%1\r\n+a\r\n=5\r\ntxt:\n\r\n,", 19),
        (b"|1\r\n+a\r\n_\r\n~0\r\n", 15),
        (b"$2\r\n\r\n\r\n+", 8),
        (b"*2\r\n*1\r\n$-1\r\n:7\r\n:8\r\n", 17),
        (b"*0\r\n*", 4),
        (b"*-1\r\n", 5),
        (b"$0\r\n\r\n\r\n", 6),
    ];
    for (bytes, whole) in rows {
        for step in 1..=bytes.len() {
            let mut extent = Extent::new(Protocol::Resp3);
            let mut have = 0;
            let end = loop {
                have = bytes.len().min(have + step);
                match extent.advance(&bytes[..have]).unwrap() {
                    Some(end) => break end,
                    None => assert!(have < whole, "{bytes:?} {step}"),
                }
            };
            assert_eq!(end, whole, "{bytes:?} {step}");
            assert!(have - end < step);
        }
    }
    // The state records the bytes that were scanned.
    let mut extent = Extent::new(Protocol::Resp2);
    assert_eq!(extent.advance(b"*2\r\n:1\r\n"), Ok(None));
    assert_ne!(extent, Extent::new(Protocol::Resp2));
    let rows: [(&[u8], usize, usize); 5] = [
        (b"x", 0, 0), (b":1a\r\n", 4, 0), (b"$1\r\nab\r\n", 5, 4), (b"*1\r\nx", 4, 4),
        (b"*1\r\n_", 4, 4),
    ];
    for (bytes, begins, offset) in rows {
        let mut extent = Extent::new(Protocol::Resp2);
        for have in 0..=begins {
            assert_eq!(extent.advance(&bytes[..have]), Ok(None), "{bytes:?} {have}");
        }
        let refused = extent.advance(&bytes[..begins + 1]);
        assert_eq!(refused, Err(Error::Invalid(Some(offset))), "{bytes:?}");
    }
}

/// The result for a chunked body that arrives in chunks: its content, its trailers, the number of
/// bytes after it, and whether it ends or why it is invalid.
type Decoded = (Vec<u8>, Vec<u8>, usize, Result<bool, ChunkedError>);

fn decode(mut body: Chunked, bytes: &[u8], piece: usize) -> Decoded {
    let (mut content, mut trailers, mut left) = (Vec::new(), Vec::new(), bytes.len());
    for mut part in bytes.chunks(piece) {
        loop {
            let before = part.len();
            let said = body.advance(&mut part);
            left -= before - part.len();
            match said {
                Ok(Step::Data(data)) => content.extend_from_slice(data),
                Ok(Step::Trailers(fields)) => trailers.extend_from_slice(fields),
                Ok(Step::More) => break,
                Ok(Step::End) => return (content, trailers, left, Ok(true)),
                Err(fault) => return (content, trailers, left, Err(fault)),
            }
        }
    }
    (content, trailers, left, Ok(false))
}

#[test]
fn http_chunked_of_pieces() {
    let rows: [(&[u8], &[u8], &[u8], usize); 4] = [
        (b"4\r\nWiki\r\n5\r\npedia\r\n0\r\n\r\n", b"Wikipedia", b"", 0),
        (b"1;a=\"b\\\"\" ; c\r\n\n\r\n0\r\n\r\nHTTP", b"\n", b"", 4),
        (b"00\r\nA: b\r\nC:\r\n\r\n", b"", b"A: b\r\nC:\r\n", 0),
        (b"0\r\n\r\n\r\n", b"", b"", 2),
    ];
    for (bytes, content, trailers, rest) in rows {
        for piece in 1..=bytes.len() {
            let want = (content.to_vec(), trailers.to_vec(), rest, Ok(true));
            assert_eq!(decode(Chunked::new(), bytes, piece), want, "{bytes:?} {piece}");
        }
        for cut in 1..bytes.len() - rest {
            let (_, _, left, said) = decode(Chunked::new(), &bytes[..cut], 2);
            assert_eq!((left, said), (0, Ok(false)), "{bytes:?} {cut}");
        }
    }
    let refused: [(&[u8], usize, ChunkedError); 6] = [
        (b"x", 0, ChunkedError::Size),
        (b"1 \r\n", 2, ChunkedError::SizeLine),
        (b"10000000000000000\r\n", 16, ChunkedError::SizeTooLarge),
        (b"1\r\nab", 4, ChunkedError::DataEnd),
        (b"0\r\n A: b\r\n", 3, ChunkedError::Trailers),
        (b"0\r\n\r\r", 4, ChunkedError::Trailers),
    ];
    for (bytes, begins, fault) in refused {
        for piece in 1..=bytes.len() {
            let (_, _, left, said) = decode(Chunked::new(), bytes, piece);
            assert_eq!((bytes.len() - left, said), (begins, Err(fault)), "{bytes:?}");
        }
    }
    let (_, _, left, said) = decode(Chunked::with_limits(3, 2), b"0\r\nA:\r\n\r\n", 1);
    assert_eq!((left, said), (4, Err(ChunkedError::TrailersTooLong)));
    let (_, _, left, said) = decode(Chunked::with_limits(3, 20), b"0;ab\r\n\r\n", 9);
    assert_eq!((left, said), (5, Err(ChunkedError::SizeLineTooLong)));
    let mut begun = Chunked::default();
    assert_eq!(begun.advance(&mut &b""[..]), Ok(Step::More));
    assert_eq!(begun, Chunked::with_limits(4096, 8192));
    assert_eq!(ChunkedError::DataEnd.to_string(), "expected CRLF after chunk data");
}

/// Replies of both versions of the protocol.
const REPLIES: [(&[u8], Reply, &[u8]); 9] = [
    (b"+OK\r\n", Reply::Simple(b"OK"), b""),
    (b"-ERR unknown\r\n+", Reply::Error(b"ERR unknown"), b"+"),
    (b":1000\r\n", Reply::Integer(1000), b""),
    (b":-9223372036854775808\r\n", Reply::Integer(i64::MIN), b""),
    (b"$6\r\nfoobar\r\n$", Reply::Bulk(b"foobar"), b"$"),
    (b"$2\r\n\r\n\r\n", Reply::Bulk(b"\r\n"), b""),
    (b"$0\r\n\r\n", Reply::Bulk(b""), b""),
    (b"$-1\r\n", Reply::NullBulk, b""),
    (b"*-1\r\n", Reply::NullArray, b""),
];

/// Replies of RESP3 only.
const OF_RESP3: [(&[u8], Reply, &[u8]); 9] = [
    (b"_\r\n", Reply::Null, b""),
    (b"#t\r\n#", Reply::Boolean(true), b"#"),
    (b"#f\r\n", Reply::Boolean(false), b""),
    (b",-1.5e+3\r\n", Reply::Double(b"-1.5e+3"), b""),
    (b",inf\r\n", Reply::Double(b"inf"), b""),
    (b"(-3492890328409238509324850943850943825024385\r\n(",
     Reply::BigNumber(b"-3492890328409238509324850943850943825024385"), b"("),
    (b"!21\r\nSYNTAX invalid syntax\r\n", Reply::BulkError(b"SYNTAX invalid syntax"), b""),
    (b"=15\r\ntxt:Some string\r\n", Reply::Verbatim(b"txt", b"Some string"), b""),
    (b"=4\r\nmkd:\r\n", Reply::Verbatim(b"mkd", b""), b""),
];

fn is_reply(protocol: Protocol, bytes: &[u8], want: Reply, rest: &[u8]) {
    assert_eq!(resp::reply(bytes, protocol, 0), Ok((want, rest)), "{bytes:?}");
    for end in 0..bytes.len() - rest.len() {
        let cut = &bytes[..end];
        assert_eq!(resp::reply(cut, protocol, 0), Err(Error::Invalid(Some(end))), "{bytes:?}");
        assert_eq!(resp::reply_partial(cut, protocol, 0), Err(Error::Incomplete), "{bytes:?}");
    }
    assert_eq!(resp::reply_partial(bytes, protocol, 0), Ok((want, rest)), "{bytes:?}");
}

#[test]
fn resp_reply_of_bytes() {
    for (bytes, want, rest) in REPLIES {
        is_reply(Protocol::Resp2, bytes, want, rest);
        is_reply(Protocol::Resp3, bytes, want, rest);
    }
    for (bytes, want, rest) in OF_RESP3 {
        is_reply(Protocol::Resp3, bytes, want, rest);
        let invalid = Err(Error::Invalid(Some(0)));
        assert_eq!(resp::reply_partial(bytes, Protocol::Resp2, 0), invalid, "{bytes:?}");
    }
    assert_eq!(resp::reply(b"+\r\n", Protocol::Resp2, MAX_DEPTH + 1), Err(Error::MaxDepthTooLarge));
}

#[test]
fn resp_reply_of_invalid_bytes() {
    let rows: [(&[u8], Error); 13] = [
        (b"x", Error::Invalid(Some(0))),
        (b":1a\r\n", Error::Invalid(Some(0))),
        (b"$+1\r\na\r\n", Error::Invalid(Some(0))),
        (b"$-2\r\n", Error::Invalid(Some(0))),
        (b"+a\rb", Error::Invalid(Some(0))),
        (b"$1\r\nab\r\n", Error::Invalid(Some(4))),
        (b"=3\r\ntxt\r\n", Error::Invalid(Some(4))),
        (b"*2\r\n:1\r\n#x\r\n", Error::Invalid(Some(8))),
        (b":9223372036854775808\r\n", Error::OutOfRange(0)),
        (b"~2\r\n_\r\n$9223372036854775808\r\n", Error::OutOfRange(7)),
        (b"%4611686018427387904\r\n", Error::OutOfRange(0)),
        (b"*2\r\n:1\r\n>1\r\n:1\r\n", Error::TooDeep(8)),
        (b"*2\r\n%0\r\n", Error::TooDeep(4)),
    ];
    for (bytes, want) in rows {
        assert_eq!(resp::reply(bytes, Protocol::Resp3, 1), Err(want), "{bytes:?}");
        assert_eq!(resp::reply_partial(bytes, Protocol::Resp3, 1), Err(want), "{bytes:?}");
        let told = Extent::new(Protocol::Resp3).advance(bytes);
        match want {
            Error::TooDeep(_) => assert!(told.is_ok(), "{bytes:?}"),
            _ => assert_eq!(told, Err(want), "{bytes:?}"),
        }
    }
    assert_eq!(Error::OutOfRange(7).to_string(), "number out of range at offset 7");
    assert_eq!(Error::OutOfRange(7).offset(), Some(7));
}

#[test]
fn resp_reply_of_aggregates() {
    let text = b"*3\r\n*1\r\n:1\r\n$-1\r\n+a\r\n+b\r\n";
    let (reply, rest) = resp::reply(text, Protocol::Resp2, 2).unwrap();
    let Reply::Array(mut elements) = reply else { panic!("{reply:?}") };
    assert_eq!(rest, b"+b\r\n");
    assert_eq!(elements.len(), 3);
    let Some(Ok(Reply::Array(inner))) = elements.next() else { panic!("{elements:?}") };
    assert_eq!(inner.collect::<Result<Vec<_>, _>>().unwrap(), [Reply::Integer(1)]);
    assert_eq!(elements.next(), Some(Ok(Reply::NullBulk)));
    assert_eq!(elements.next(), Some(Ok(Reply::Simple(b"a"))));
    assert_eq!(elements.next(), None);
    let deep = "*1\r\n".repeat(MAX_DEPTH) + ":1\r\n";
    assert!(resp::reply(deep.as_bytes(), Protocol::Resp2, MAX_DEPTH).is_ok());
    let too_deep = resp::reply(deep.as_bytes(), Protocol::Resp2, MAX_DEPTH - 1);
    assert_eq!(too_deep, Err(Error::TooDeep(4 * (MAX_DEPTH - 1))));
    // A map of a set, in attributes of a push.
    let text = b"|1\r\n+a\r\n%1\r\n+b\r\n~1\r\n#t\r\n>2\r\n+c\r\n:1\r\n";
    let Ok((Reply::Attributed(mut all), b"")) = resp::reply(text, Protocol::Resp3, 3) else { panic!() };
    assert_eq!((all.len(), all.next()), (3, Some(Ok(Reply::Simple(b"a")))));
    let Some(Ok(Reply::Map(mut pairs))) = all.next() else { panic!() };
    assert_eq!((pairs.len(), pairs.next()), (2, Some(Ok(Reply::Simple(b"b")))));
    let Some(Ok(Reply::Set(mut set))) = pairs.next() else { panic!() };
    assert_eq!((set.next(), set.next()), (Some(Ok(Reply::Boolean(true))), None));
    let Some(Ok(Reply::Push(push))) = all.next() else { panic!() };
    let parts: Result<Vec<_>, _> = push.collect();
    assert_eq!(parts.unwrap(), [Reply::Simple(b"c"), Reply::Integer(1)]);
}

#[test]
fn library_says_what_it_is() {
    assert_eq!(pergidau::version(), env!("CARGO_PKG_VERSION"));
    let is_unproved = std::env::var("PERGIDAU_UNPROVED").is_ok_and(|it| it == "1");
    assert_eq!(pergidau::is_proved(), !is_unproved);
}

#[test]
fn errors_are_shown() {
    let error: Box<dyn std::error::Error> = Box::new(calc::value("1 +\n 2 / 0").unwrap_err());
    assert_eq!(error.to_string(), "invalid input at offset 10");
    let place = invalid(10).position("1 +\n 2 / 0").unwrap();
    assert_eq!(place.to_string(), "line 2, column 7");
    assert_eq!((Error::Incomplete.offset(), Error::Incomplete.position("")), (None, None));
    let wanted = RequiredSize { entries: 2, bytes: 4 };
    let rows = [
        (Error::Invalid(None), "invalid input"),
        (Error::Incomplete, "incomplete input: more bytes are needed"),
        (Error::NoMemory, "memory allocation failed"),
        (Error::InvalidUtf8, "input is not valid UTF-8"),
        (Error::BufferTooSmall(wanted), "buffer too small: 2 entries and 4 bytes required"),
        (Error::MaxDepthTooLarge, "depth limit too large: at most 512 levels are supported"),
        (Error::TooDeep(4), "nested too deep at offset 4"),
        (Error::Unknown(7), "unknown code 7 from the library"),
    ];
    for (error, want) in rows {
        assert_eq!(error.to_string(), want);
    }
    let place = Position::of("gr\u{f6}\u{df}e=1\nh\u{f6}he?2\n".as_bytes(), 15);
    assert_eq!(place, Position { offset: 15, line: 2, column: 5 });
}
