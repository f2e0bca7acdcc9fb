//! The contents of strings, as returned by Python's `json.loads`.
use format_json_extents::unescape::write_string;

/// A string and what follows it, the string's contents, and the rest.
const STRINGS: &[(&[u8], &[u8], &[u8])] = &[
    (b"\"\"", b"", b""),
    (b"\"role\": 1", b"role", b": 1"),
    (b"\"r\\u006fle\"", b"role", b""),
    (b"\"\\\"\\\\\\/\\b\\f\\n\\r\\t\"]", b"\"\\/\x08\x0c\n\r\t", b"]"),
    (
        b"\"\\u0000\\u007f\\u0080\\u07fF\\u0800\\uFFfd\"",
        b"\x00\x7f\xc2\x80\xdf\xbf\xe0\xa0\x80\xef\xbf\xbd",
        b"",
    ),
    (
        b"\"\\uD83d\\uDe00\\ud800\\udc00\\udbff\\udfff\"",
        b"\xf0\x9f\x98\x80\xf0\x90\x80\x80\xf4\x8f\xbf\xbf",
        b"",
    ),
    (
        b"\"more than sixteen bytes \\u00e9\\n and as many again \xc3\xa9\"",
        b"more than sixteen bytes \xc3\xa9\n and as many again \xc3\xa9",
        b"",
    ),
];

/// Bytes that begin with no string.
const NONE: &[&[u8]] = &[
    b"",
    b"a",
    b" \"a\"",
    b"\"a",
    b"\"\\x\"",
    b"\"\\u12\"",
    b"\"\\ud800\"",
    b"\"\\udc00\"",
    b"\"\\ud800\\u0041\"",
    b"\"\n\"",
    b"\"\\",
];

#[test]
fn texts(rt: HostRuntime) {
    for (bytes, text, left) in STRINGS {
        let mut buffer = [7; 64];
        let mut input = *bytes;
        assert_eq!(rt; write_string(&mut input, &mut buffer), Some(text.len()));
        assert_eq!(rt; &buffer[..text.len()], *text);
        assert_eq!(rt; buffer[text.len()], 7);
        assert_eq!(rt; input, *left);
    }
}

#[test]
fn small_buffers(rt: HostRuntime) {
    for (bytes, text, left) in STRINGS {
        let mut input = *bytes;
        assert_eq!(rt; write_string(&mut input, &mut []), Some(text.len()));
        assert_eq!(rt; input, *left);
    }
    let mut exact = [0; 4];
    assert_eq!(rt; write_string(&mut b"\"r\\u006fle\"".as_slice(), &mut exact), Some(4));
    assert_eq!(rt; exact.as_slice(), b"role".as_slice());
}

#[test]
fn no_strings(rt: HostRuntime) {
    for bytes in NONE {
        let mut input = *bytes;
        assert!(rt; write_string(&mut input, &mut [0; 8]).is_none(), "{bytes:?}");
        assert_eq!(rt; input, *bytes);
    }
}
