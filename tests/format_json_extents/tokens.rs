//! Numbers and strings of JSON, by the grammar of RFC 8259.
use std::fmt::Debug;
use std::process::Abort;
use format_json_extents::number::read_number;
use format_json_extents::string::read_string;

/// A text, the longest number at its start by the grammar of section 6, and the rest.
const NUMBERS: &[(&[u8], &[u8], &[u8])] = &[
    (b"0", b"0", b""),
    (b"-0", b"-0", b""),
    (b"00", b"0", b"0"),
    (b"-01", b"-0", b"1"),
    (b"12", b"12", b""),
    (b"100", b"100", b""),
    (b"9,", b"9", b","),
    (b"12 3", b"12", b" 3"),
    (b"1.5", b"1.5", b""),
    (b"0.0", b"0.0", b""),
    (b"-0.10", b"-0.10", b""),
    (b"1.", b"1", b"."),
    (b"1.x", b"1", b".x"),
    (b"1.2.3", b"1.2", b".3"),
    (b"1e5", b"1e5", b""),
    (b"1E5", b"1E5", b""),
    (b"1e+5", b"1e+5", b""),
    (b"1e-05", b"1e-05", b""),
    (b"0e0", b"0e0", b""),
    (b"1e", b"1", b"e"),
    (b"1e+", b"1", b"e+"),
    (b"1e+-5", b"1", b"e+-5"),
    (b"1e5.5", b"1e5", b".5"),
    (b"1.e5", b"1", b".e5"),
    (b"1.5e3]", b"1.5e3", b"]"),
    (b"-12.50E+10x", b"-12.50E+10", b"x"),
    (b"0x1F", b"0", b"x1F"),
    (b"1-2", b"1", b"-2"),
    (b"1ee5", b"1", b"ee5"),
    // The members of the examples in section 13.
    (b"800,", b"800", b","),
    (b"37.7668,", b"37.7668", b","),
    (b"-122.3959,", b"-122.3959", b","),
    (b"-122.026020,", b"-122.026020", b","),
];

/// Texts that begin with no number.
const NO_NUMBERS: &[&[u8]] = &[
    b"", b"-", b"+1", b".5", b"-.5", b"e5", b" 1", b"--1", b"-a", b"NaN", b"Infinity",
    b"-Infinity", b"\xc2\xb2", b"\"1\"", b"/", b":",
];

/// A text, the contents of the string at its start by the grammar of section 7, and the rest.
const STRINGS: &[(&[u8], &[u8], &[u8])] = &[
    (b"\"\"", b"", b""),
    (b"\"\"\"", b"", b"\""),
    (b"\"a\"", b"a", b""),
    (b"\"a\" : 1", b"a", b" : 1"),
    (b"\"\\\"\"", b"\\\"", b""),
    (b"\"\\\\\"", b"\\\\", b""),
    (b"\"\\\\\"\"", b"\\\\", b"\""),
    (b"\"\\/\\b\\f\\n\\r\\t\"", b"\\/\\b\\f\\n\\r\\t", b""),
    (b"\"a/b\"", b"a/b", b""),
    (b"\"\\u005C\"", b"\\u005C", b""),
    (b"\"\\u005c\"", b"\\u005c", b""),
    (b"\"\\uD834\\uDD1E\"", b"\\uD834\\uDD1E", b""),
    (b"\"\\ud834\\udd1e\"", b"\\ud834\\udd1e", b""),
    (b"\"\\uD800\\uDC00\"", b"\\uD800\\uDC00", b""),
    (b"\"\\uDBFF\\uDFFF\"", b"\\uDBFF\\uDFFF", b""),
    (b"\"\\udbff\\udfff\"", b"\\udbff\\udfff", b""),
    (b"\"\\uD999\\uDddd\"", b"\\uD999\\uDddd", b""),
    (b"\"\\uD7FF\"", b"\\uD7FF", b""),
    (b"\"\\uE000\"", b"\\uE000", b""),
    (b"\"\\uFFFF\"", b"\\uFFFF", b""),
    (b"\"\\uCDDD\"", b"\\uCDDD", b""),
    (b"\"\\u0D80\"", b"\\u0D80", b""),
    (b"\"\\uD834\\uDD1E\\uD834\\uDD1E\"", b"\\uD834\\uDD1E\\uD834\\uDD1E", b""),
    (b"\"\\u00000\"", b"\\u00000", b""),
    (b"\"\\u09afAF\"", b"\\u09afAF", b""),
    (b"\"\x7f\"", b"\x7f", b""),
    (b"\" !#[]~\"", b" !#[]~", b""),
    (b"\"\xc3\xa9\xf0\x9d\x84\x9e\"", b"\xc3\xa9\xf0\x9d\x84\x9e", b""),
    (b"\"'\"'", b"'", b"'"),
    (b"\"x\\ny\\u0041z\\\\\" rest", b"x\\ny\\u0041z\\\\", b" rest"),
];

/// Texts that begin with no string.
const NO_STRINGS: &[&[u8]] = &[
    b"", b"\"", b"a", b"'a'", b" \"a\"", b"\"a", b"\"a\\", b"\"a\\\"", b"\"\\x\"", b"\"\\0\"",
    b"\"\\'\"", b"\"\\B\"", b"\"\\U0041\"", b"\"\\u\"", b"\"\\u004\"", b"\"\\u004\\n\"",
    b"\"\\u004g\"", b"\"\\u00/0\"", b"\"\\u00:0\"", b"\"\\u00@0\"", b"\"\\u00`0\"",
    b"\"\\u00G0\"", b"\"\x00\"", b"\"\x1f\"", b"\"\n\"", b"\"\t\"", b"\"\r\"", b"\"\\\n\"",
];

/// Texts with an unpaired surrogate escape, by itself or before other text (RFC 8259, section 8.2).
/// It encodes no character.
const SURROGATES: &[&[u8]] = &[
    b"\"\\uD800\"", b"\"\\ud800\"", b"\"\\uDBFF\"", b"\"\\uDC00\"", b"\"\\uDEAD\"", b"\"\\udfff\"",
    b"\"\\uD834 \\uDD1E\"", b"\"\\uD834a\"", b"\"\\uD834\\n\"", b"\"\\uD834\\u0041\"",
    b"\"\\uD834\\uD834\"", b"\"\\uDD1E\\uD834\"", b"\"\\uD834\\uE000\"", b"\"\\uD834\\uDBFF\"",
    b"\"\\uD834\\UDD1E\"", b"\"\\uD834uDD1E\"", b"\"\\uD834\\\\uDD1E\"", b"\"\\uD834\\uDD1\"",
    b"\"\\uD834\\uDD1\\n\"", b"\"\\uD834\\uDD", b"\"\\uD834\\u", b"\"\\uD834\\", b"\"\\uD834",
    b"\"\\uD83", b"\"\\uD", b"\"\\uD834\\uDD1E\\uDD1E\"", b"\"\\uD834\\uD834\\uDD1E\"",
    b"\"\\uD:34\"", b"\"\\uD/34\"", b"\"\\uD8g4\"", b"\"\\uD80g\\uDC00\"", b"\"\\uD800\\uDC0g\"",
    b"\"\\uD800\\uDG00\"", b"\"\\uD800\\ue000\"", b"\"\\uD800\\u1C00\"",
];

fn same<T: PartialEq + Debug + Drop>(rt: &impl Abort, row: &[u8], got: T, want: T) {
    assert_eq!(rt; got, want, "{row:?}");
}

#[test]
fn read_number_of_numbers(rt: HostRuntime) {
    for (text, number, rest) in NUMBERS {
        let mut input = *text;
        same(&rt, text, read_number(&mut input), Some(*number));
        same(&rt, text, input, *rest);
    }
}

#[test]
fn read_number_of_none(rt: HostRuntime) {
    for text in NO_NUMBERS {
        let mut input = *text;
        same(&rt, text, read_number(&mut input), None);
        same(&rt, text, input, *text);
    }
}

#[test]
fn read_string_of_strings(rt: HostRuntime) {
    for (text, inner, rest) in STRINGS {
        let mut input = *text;
        same(&rt, text, read_string(&mut input), Some(*inner));
        same(&rt, text, input, *rest);
    }
}

#[test]
fn read_string_of_none(rt: HostRuntime) {
    for text in NO_STRINGS {
        let mut input = *text;
        same(&rt, text, read_string(&mut input), None);
        same(&rt, text, input, *text);
    }
    for text in SURROGATES {
        let mut input = *text;
        same(&rt, text, read_string(&mut input), None);
        same(&rt, text, input, *text);
    }
}
