//! Texts of JSON in bytes, and the values that they are.
use format_json_pieces::value::parse_value_of_bytes;
use std::process::Abort;
use test_json_support::shown::show;
use winnow::error::ParseFault;

/// A maximum nesting depth, a text, and its value as Python's `json` reads it: `'` around each
/// string, a comma after each item.
const ROWS: &[(usize, &[u8], &str)] = &[
    (0, b" \t\r\n-0.5e+07 \t\r\n", "-0.5e+07"),
    (1, b"[null,false, true ,1\t,\n\"\"]", "[null,false,true,1,'',]"),
    (1, b"{\"\\u0061\\n\":\"\\ud834\\udd1e\"}", "{'a\n':'\u{1d11e}',}"),
    (0, b"\"\xc3\xa9\xe2\x82\xac\xf0\x9d\x84\x9e\"", "'\u{e9}\u{20ac}\u{1d11e}'"),
    (3, b"{\"a\":[{\"b\":0}]}", "{'a':[{'b':0,},],}"),
];

/// Bytes that are not a JSON text nested at most one deep, and the offset in the error: that of the
/// first byte that is not UTF-8, or how far the text was read.
const NONE: &[(&[u8], usize)] = &[
    (b"", 0),
    (b" ", 1),
    (b"01", 1),
    (b"[1,]", 2),
    (b"[[]]", 1),
    (b"1 x", 2),
    (b"\xef\xbb\xbf1", 0),
    (b"\"ab\xff\"", 3),
    (b"\"\xe2\x82\"", 1),
    (b"1 \xc3\xa9\x80", 4),
    (b"\"\xed\xa0\x80\"", 1),
];

#[test]
fn parse_value_of_rows(rt: HostRuntime) {
    for (level, bytes, want) in ROWS {
        match parse_value_of_bytes(rt.alloc(), *level, bytes) {
            Ok(value) => {
                let mut into = String::new(rt.alloc());
                assert!(rt; show(&value, &mut into).is_ok());
                assert_eq!(rt; into.as_str(), *want);
            }
            Err(_) => assert!(rt; false, "{want}"),
        }
    }
}

#[test]
fn parse_value_refuses(rt: HostRuntime) {
    for (bytes, place) in NONE {
        match parse_value_of_bytes(rt.alloc(), 1, bytes) {
            Err(ParseFault::Invalid(error)) => {
                assert_eq!(rt; error.offset(), *place, "{bytes:?}");
                assert_eq!(rt; *error.input(), *bytes);
            }
            _ => assert!(rt; false, "{bytes:?}"),
        }
    }
}
