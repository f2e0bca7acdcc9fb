//! Tables of JSON texts and their values, from Rust. The expected results are those of Python's
//! `json`.
use pergidau::json::{self, Extent, Kind, Step};
use pergidau::{Error, RequiredSize};

/// Formats the steps of a text.
fn told(steps: json::Steps<'_>) -> String {
    steps
        .map(|it| match it {
            Step::Value(value) => format!("{:?} {}", value.kind(), value.text()),
            Step::Name(name) => format!("name {}", name.text()),
            Step::BeginArray => "[".into(),
            Step::EndArray => "]".into(),
            Step::BeginObject => "{".into(),
            Step::EndObject => "}".into(),
        })
        .collect::<Vec<_>>()
        .join(", ")
}

#[test]
fn steps_of_texts() {
    let rows = [
        (" null ", "Null null"),
        ("[true , false,\n-1e2]", "[, True true, False false, Number -1e2, ]"),
        (
            "{\"a\": [1, {\"b\" : \"c\"}], \"d\":{}}",
            "{, name \"a\", [, Number 1, {, name \"b\", String \"c\", }, ], name \"d\", {, }, }",
        ),
        ("[\"a\", \"b:\"]", "[, String \"a\", String \"b:\", ]"),
    ];
    for (text, want) in rows {
        assert_eq!(told(json::steps(text, 3).unwrap()), want, "{text}");
    }
    assert_eq!(json::steps("[1,]", 3).err(), Some(Error::Invalid(Some(3))));
    assert_eq!(json::steps("[[]]", 1).err(), Some(Error::TooDeep(1)));
}

#[test]
fn steps_of_a_value() {
    let list = json::parse("[0, {\"a\": [1]}, 2]", 3).unwrap();
    assert_eq!(list.steps().nth(1), list.elements().next().map(Step::Value));
    assert_ne!(list.elements().next(), list.elements().last());
    let object = list.elements().nth(1).unwrap();
    assert_eq!(told(object.steps()), "{, name \"a\", [, Number 1, ], }");
    assert_eq!(told(list.elements().next().unwrap().steps()), "Number 0");
}

#[test]
fn steps_of_deep_texts() {
    let text = "[".repeat(500) + &"]".repeat(500);
    let steps = json::steps(&text, 500).unwrap();
    assert_eq!(steps.filter(|it| *it == Step::BeginArray).count(), 500);
    assert_eq!(steps.last(), Some(Step::EndArray));
}

#[test]
fn integers_of_values() {
    let rows = [
        ("0", Some(0), Some(0)),
        ("-0", Some(0), None),
        ("-12", Some(-12), None),
        ("1.0", None, None),
        ("1e2", None, None),
        ("\"1\"", None, None),
        ("[1]", None, None),
        ("9223372036854775807", Some(i64::MAX), Some(i64::MAX as u64)),
        ("-9223372036854775808", Some(i64::MIN), None),
        ("9223372036854775808", None, Some(1 << 63)),
        ("18446744073709551616", None, None),
    ];
    for (text, signed, unsigned) in rows {
        let value = json::parse(text, 1).unwrap();
        assert_eq!((value.as_i64(), value.as_u64()), (signed, unsigned), "{text}");
    }
}

#[test]
fn texts_of_strings() {
    let rows = [
        ("\"\"", ""),
        ("\"role\"", "role"),
        ("\"r\\u006fle\"", "role"),
        ("\"\\\"\\\\\\/\\b\\f\\n\\r\\t\"", "\"\\/\u{8}\u{c}\n\r\t"),
        ("\"\\uD83d\\uDe00 \u{e9}\"", "\u{1f600} \u{e9}"),
        ("\"\\u0000\"", "\0"),
    ];
    for (text, want) in rows {
        let value = json::parse(text, 0).unwrap();
        let mut buffer = [0xab; 40];
        assert_eq!(value.as_str_into(&mut buffer), Ok(Some(want)), "{text}");
        let escaped = text.contains('\\');
        assert_eq!(buffer[0] == 0xab, !escaped, "{text}");
        let small = json::parse(text, 0).unwrap().as_str_into(&mut []).err();
        let wanted = Error::BufferTooSmall(RequiredSize { entries: 0, bytes: want.len() });
        assert_eq!(small, escaped.then_some(wanted), "{text}");
    }
    assert_eq!(json::parse("1", 0).unwrap().as_str_into(&mut []), Ok(None));
}

#[test]
fn names_of_steps() {
    let mut steps = json::steps("{\"a\\nb\": 1}", 1).unwrap();
    steps.next();
    let Some(Step::Name(name)) = steps.next() else { panic!("no name") };
    assert_eq!(name.kind(), Kind::String);
    assert_eq!(name.as_str_into(&mut [0; 8]), Ok(Some("a\nb")));
}

#[test]
fn bytes_that_begin_with_strings() {
    let mut buffer = [0; 8];
    assert_eq!(json::unescape(b"\"\\u00e9\xff\"\x01", &mut buffer), Ok((&b"\xc3\xa9\xff"[..], &b"\x01"[..])));
    for bytes in [&b""[..], b"\"a", b"\"\\ud800\"", b" \"a\"", b"\"\\x\""] {
        assert_eq!(json::unescape(bytes, &mut buffer), Err(Error::Invalid(None)), "{bytes:?}");
    }
    let small = json::unescape(b"\"abc\"", &mut [0; 2]).unwrap_err();
    assert_eq!(small.to_string(), "buffer too small: 3 bytes required");
}

#[test]
fn decimals_of_values() {
    let decimal = |negative, digits, exponent| Some(json::Decimal { negative, digits, exponent });
    let rows = [
        ("0", decimal(false, 0, 0)),
        ("-0.00e7", decimal(false, 0, 0)),
        ("1500", decimal(false, 15, 2)),
        ("-0.005", decimal(true, 5, -3)),
        ("18446744073709551615", decimal(false, u64::MAX, 0)),
        ("18446744073709551617", None),
        ("1e2147483648", None),
        ("\"1\"", None),
    ];
    for (text, want) in rows {
        assert_eq!(json::parse(text, 0).unwrap().as_decimal(), want, "{text}");
    }
}

/// The text and most of the rows are those of RFC 6901, section 5.
#[test]
fn pointers() {
    let text = r#"{"foo": ["bar", "baz"], "": 0, "a/b": 1, "c%d": 2, "e^f": 3, "g|h": 4,
        "i\\j": 5, "k\"l": 6, " ": 7, "m~n": 8, "\u006fpq": {"foo": [[9]]}, "foo": null}"#;
    let rows = [
        ("", Some(text)),
        ("/foo", Some("[\"bar\", \"baz\"]")),
        ("/foo/0", Some("\"bar\"")),
        ("/foo/1", Some("\"baz\"")),
        ("/", Some("0")),
        ("/a~1b", Some("1")),
        ("/c%d", Some("2")),
        ("/e^f", Some("3")),
        ("/g|h", Some("4")),
        ("/i\\j", Some("5")),
        ("/k\"l", Some("6")),
        ("/ ", Some("7")),
        ("/m~0n", Some("8")),
        ("/opq/foo/0/0", Some("9")),
        ("/opq/foo/0/1", None),
        ("/opq/foo/0/0/0", None),
        ("/foo/2", None),
        ("/foo/-", None),
        ("/foo/00", None),
        ("/foo/+1", None),
        ("/foo/", None),
        ("/foo/18446744073709551616", None),
        ("/m~n", None),
        ("/m~", None),
        ("/m~2n", None),
        ("/fo", None),
        ("foo", None),
    ];
    let value = json::parse(text, 4).unwrap();
    for (pointer, want) in rows {
        assert_eq!(value.pointer(pointer).map(|it| it.text()), want, "{pointer}");
    }
    assert_eq!(value.get("opq").unwrap().get("foo").unwrap().at(0).unwrap().text(), "[9]");
    assert_eq!(value.get("i\\j").unwrap().as_i64(), Some(5));
    assert_eq!((value.get("m~0n"), value.at(0)), (None, None));
    assert_eq!(value.get("foo").unwrap().get("0"), None);
    assert_eq!(json::parse("[1]", 1).unwrap().pointer("/0").unwrap().text(), "1");
    assert_eq!(json::parse("[]", 1).unwrap().pointer("/0"), None);
}

#[test]
fn diagnoses() {
    let rows = [
        (&b""[..], "line 1, column 1: unexpected end of input, expected a value"),
        (b"[1,\n 2 3]", "line 2, column 4: expected a comma or `]`"),
        (b"{\"a\" 1}", "line 1, column 6: expected a colon"),
        (b"nulx", "line 1, column 4: expected the letter `l`"),
        (b"[\n[[]]]", "line 2, column 2: nested too deep"),
        (b"\"a\xff\"", "line 1, column 3: input is not valid UTF-8"),
        (b"\"\\udc00\"", "line 1, column 5: expected the first half of a surrogate pair"),
    ];
    for (text, want) in rows {
        assert_eq!(json::diagnose(text, 2).unwrap_err().to_string(), want, "{text:?}");
    }
    assert_eq!(json::diagnose(b"[[]]", 2), Ok(()));
    let large = json::diagnose(b"1", 513).unwrap_err();
    assert_eq!((large.error, large.position), (Error::MaxDepthTooLarge, None));
    let deep = json::diagnose(b"[[1]]", 1).unwrap_err();
    assert_eq!((deep.error, deep.expected), (Error::TooDeep(1), None));
}

#[test]
fn extent_of_pieces() {
    let rows: [(&[u8], usize); 9] = [
        (b"null", 4),
        (b" \"a\\u00e9\xc3\xa9\",", 12),
        (b"-1.5e3\n", 6),
        (b"0-", 1),
        (b"[]]", 2),
        (b"{\"a\":[1, {}]} ", 13),
        (b"\r\n[[],[]]", 9),
        (b"\"\\ud834\\udd1e\" ", 14),
        (b"12x", 2),
    ];
    for (bytes, whole) in rows {
        for step in 1..=bytes.len() {
            let (mut extent, mut have) = (Extent::new(3), 0);
            let end = loop {
                have = bytes.len().min(have + step);
                match extent.advance(&bytes[..have]).unwrap() {
                    Some(end) => break end,
                    None => assert!(have <= whole, "{bytes:?} {step}"),
                }
            };
            assert_eq!(end, whole, "{bytes:?} {step}");
            assert_eq!(extent.finish(b" 7"), Ok(Some(2)));
        }
        assert_eq!(Extent::new(3).finish(&bytes[..whole]), Ok(Some(whole)), "{bytes:?}");
    }
    let rows: [(&[u8], Error); 7] = [
        (b"x", Error::Invalid(Some(0))),
        (b"[1,]", Error::Invalid(Some(3))),
        (b"\"\xff\"", Error::Invalid(Some(1))),
        (b"01", Error::Invalid(Some(1))),
        (b"[[[", Error::TooDeep(2)),
        (b"{\"a\":{\"b\":{", Error::TooDeep(10)),
        (b"tru ", Error::Invalid(Some(3))),
    ];
    for (bytes, error) in rows {
        let mut extent = Extent::new(2);
        let offset = error.offset().unwrap();
        for have in 0..=offset {
            assert_eq!(extent.advance(&bytes[..have]), Ok(None), "{bytes:?} {have}");
        }
        assert_eq!(extent.advance(&bytes[..offset + 1]), Err(error), "{bytes:?}");
        assert_eq!(Extent::new(2).finish(bytes), Err(error), "{bytes:?}");
    }
    assert_eq!(Extent::new(0).finish(b" \n"), Ok(None));
    assert_eq!(Extent::new(1).finish(b"[1"), Err(Error::Invalid(Some(2))));
    assert_eq!(Extent::new(pergidau::MAX_DEPTH + 1).advance(b"1"), Err(Error::MaxDepthTooLarge));
}

/// The expected strings are those of Python's `json.dumps(text, ensure_ascii=False)`.
#[test]
fn written_strings() {
    let rows = [
        ("", "\"\""),
        ("milk, \"fresh\"", "\"milk, \\\"fresh\\\"\""),
        ("C:\\x/y", "\"C:\\\\x/y\""),
        ("a\u{8}\t\n\u{c}\r\u{1f}\u{7f}", "\"a\\b\\t\\n\\f\\r\\u001f\u{7f}\""),
        ("\u{1f600}\0", "\"\u{1f600}\\u0000\""),
    ];
    for (text, want) in rows {
        let mut out = b"[".to_vec();
        json::append_string(text, &mut out).unwrap();
        assert_eq!(std::str::from_utf8(&out[1..]), Ok(want));
        let mut buffer = [0; 64];
        assert_eq!(json::write_string(text, &mut buffer), Ok(want.len()));
        assert_eq!(&buffer[..want.len()], want.as_bytes());
        let small = json::write_string(text, &mut buffer[..want.len() - 1]).unwrap_err();
        let bytes = want.len();
        assert_eq!(small, Error::BufferTooSmall(RequiredSize { entries: 0, bytes }));
        assert_eq!(json::parse(want, 0).unwrap().to_str().unwrap().as_deref(), Some(text));
    }
}
