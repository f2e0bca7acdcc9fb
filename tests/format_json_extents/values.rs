//! Values and JSON texts, by the grammar of RFC 8259.
use std::fmt::Debug;
use std::process::Abort;
use format_json_extents::value::{is_text, read_value};

/// A maximum nesting depth, a text, the longest value of at most that depth at its start, and the
/// rest.
const VALUES: &[(usize, &[u8], &[u8], &[u8])] = &[
    // Section 3.
    (0, b"null", b"null", b""),
    (0, b"true", b"true", b""),
    (0, b"false", b"false", b""),
    (0, b"nullx", b"null", b"x"),
    (0, b"truefalse", b"true", b"false"),
    (0, b"false,", b"false", b","),
    (0, b"0", b"0", b""),
    (0, b"01", b"0", b"1"),
    (0, b"-1.5e3 ", b"-1.5e3", b" "),
    (0, b"1.x", b"1", b".x"),
    (0, b"\"\"", b"\"\"", b""),
    (0, b"\"a\\\"]\" ]", b"\"a\\\"]\"", b" ]"),
    // Section 5.
    (1, b"[]", b"[]", b""),
    (1, b"[ \t\r\n]]", b"[ \t\r\n]", b"]"),
    (1, b"[\n                 1]", b"[\n                 1]", b""),
    (1, b"[1\r\n\t\t\t\t\t\t\t\t\t\t\t\t\t\t\r\n          \t\r\n ]",
     b"[1\r\n\t\t\t\t\t\t\t\t\t\t\t\t\t\t\r\n          \t\r\n ]", b""),
    (1, b"[1]", b"[1]", b""),
    (1, b"[1,2,3]x", b"[1,2,3]", b"x"),
    (1, b"[ null , \"a\" ,\n-0.5E+1 ] ", b"[ null , \"a\" ,\n-0.5E+1 ]", b" "),
    (1, b"[12.5e10]", b"[12.5e10]", b""),
    (1, b"[\"]\"]", b"[\"]\"]", b""),
    (2, b"[[]]", b"[[]]", b""),
    (3, b"[[[]]]", b"[[[]]]", b""),
    (9, b"[[[]]]", b"[[[]]]", b""),
    (3, b"[[],[ ],[1,[2]]]", b"[[],[ ],[1,[2]]]", b""),
    // Section 4.
    (1, b"{}", b"{}", b""),
    (1, b"{ }}", b"{ }", b"}"),
    (1, b"{\"a\":1}", b"{\"a\":1}", b""),
    (1, b"{ \"a\" : 1 , \"a\" : 2 }", b"{ \"a\" : 1 , \"a\" : 2 }", b""),
    (1, b"{\"\":\"\"}", b"{\"\":\"\"}", b""),
    (2, b"{\"a\":{}}", b"{\"a\":{}}", b""),
    (2, b"[{\"a\":1},{\"b\":null}]", b"[{\"a\":1},{\"b\":null}]", b""),
    (2, b"{\"a\":[true,false]},2", b"{\"a\":[true,false]}", b",2"),
];

/// A level, and a text that begins with no value with no more levels.
const NO_VALUES: &[(usize, &[u8])] = &[
    (9, b""),
    (9, b" 1"),
    (9, b"[\n        \x0b        1]"),
    (9, b"[\n        \x0c        1]"),
    (9, b"[1\n            \x00         ]"),
    (9, b"[\n                                                 "),
    (9, b"nul"),
    (9, b"Null"),
    (9, b"TRUE"),
    (9, b"fals"),
    (9, b"-"),
    (9, b"+1"),
    (9, b".5"),
    (9, b"NaN"),
    (9, b"Infinity"),
    (9, b"'a'"),
    (9, b"\"a"),
    (9, b"a"),
    (9, b","),
    (9, b":"),
    (9, b"]"),
    (9, b"}"),
    (9, b"["),
    (9, b"[1"),
    (9, b"[1,"),
    (9, b"[1,]"),
    (9, b"[,1]"),
    (9, b"[,]"),
    (9, b"[1,,2]"),
    (9, b"[1 2]"),
    (9, b"[1:2]"),
    (9, b"[1}"),
    (9, b"[01]"),
    (9, b"[1.]"),
    (9, b"[-]"),
    (9, b"[1e]"),
    (9, b"[nul]"),
    (9, b"[nulls]"),
    (9, b"[\"a]"),
    (9, b"[\"a\": 1]"),
    (9, b"[[]"),
    (9, b"[[1]2]"),
    (9, b"{"),
    (9, b"{]"),
    (9, b"{1:2}"),
    (9, b"{a:1}"),
    (9, b"{\"a\"}"),
    (9, b"{\"a\":}"),
    (9, b"{\"a\" 1}"),
    (9, b"{\"a\"::1}"),
    (9, b"{\"a\",1}"),
    (9, b"{:1}"),
    (9, b"{\"a\":1,}"),
    (9, b"{,\"a\":1}"),
    (9, b"{\"a\":1 \"b\":2}"),
    (9, b"{\"a\":1,,\"b\":2}"),
    (9, b"{\"a\":1]"),
    (9, b"{\"a\":1"),
    (9, b"{null:1}"),
    (9, b"{[]:1}"),
    (9, b"[\x0c1]"),
    (9, b"[\xc2\xa01]"),
    // One level too many.
    (0, b"[]"),
    (0, b"{}"),
    (1, b"[[]]"),
    (1, b"[{}]"),
    (1, b"{\"a\":[]}"),
    (1, b"[1,[2],3]"),
    (2, b"[[[]]]"),
    (2, b"{\"a\":{\"b\":{}}}"),
];

/// Texts that are values of two levels at most, with whitespace round them.
const TEXTS: &[&[u8]] = &[
    b"1",
    b" 1",
    b"1 ",
    b"\t\n\r null \n",
    b"\"\"",
    b"[]",
    b" [ ] ",
    b"\n{\"a\" :\t[ 1,2 ] }\r\n",
    b"[1.5,-0,1E-2,\"\\u00e9\"]",
    b"{\"\\uD834\\uDD1E\":[\"\\ud83d\\ude00\"]}",
    b"[[],{}]",
    // Bytes of 128 and above are not looked at.
    b"\"\xff\"",
];

/// Invalid JSON texts.
const NO_TEXTS: &[&[u8]] = &[
    b"",
    b" ",
    b"\n",
    b"1 2",
    b"01",
    b"1.",
    b"-",
    b"1.x",
    b"nul",
    b"nullx",
    b"truefalse",
    b"[] []",
    b"[],",
    b"[1]]",
    b"{}}",
    b"[1,]",
    b"\xef\xbb\xbf1",
    b"1\x00",
    b"1\x0c",
    b"// a\n1",
    b"[[[]]]",
    b"[{\"a\":{}}]",
    // An unpaired surrogate escape encodes no character (section 8.2).
    b"\"\\ud800\"",
    b"[\"\\udead\"]",
    b"{\"\\ud834\":1}",
    b"[\"\\ud834\",\"\\udd1e\"]",
];

fn same<T: PartialEq + Debug + Drop>(rt: &impl Abort, row: &[u8], got: T, want: T) {
    assert_eq!(rt; got, want, "{row:?}");
}

#[test]
fn read_value_of_values(rt: HostRuntime) {
    for (level, text, value, rest) in VALUES {
        let mut input = *text;
        same(&rt, text, read_value(*level, &mut input), Some(*value));
        same(&rt, text, input, *rest);
    }
}

#[test]
fn read_value_of_none(rt: HostRuntime) {
    for (level, text) in NO_VALUES {
        let mut input = *text;
        same(&rt, text, read_value(*level, &mut input), None);
        same(&rt, text, input, *text);
    }
}

#[test]
fn is_text_of_texts(rt: HostRuntime) {
    for text in TEXTS {
        same(&rt, text, is_text(2, text), true);
    }
    for text in NO_TEXTS {
        same(&rt, text, is_text(2, text), false);
    }
}

/// A JSON text of nested arrays is accepted at its nesting depth, and rejected at any smaller one.
#[test]
fn is_text_of_many_levels(rt: HostRuntime) {
    let mut text = [b'['; 600];
    for place in 300..600 {
        text[place] = b']';
    }
    assert!(rt; is_text(300, text.as_slice()));
    assert!(rt; is_text(usize::MAX, text.as_slice()));
    assert!(rt; !is_text(299, text.as_slice()));
    assert!(rt; !is_text(300, &text[1..]));
    assert!(rt; !is_text(300, &text[..599]));
}
