//! Values from pieces, at every cut.
use format_json_pieces::value::read_value_in_pieces;
use format_json_texts::value::Value;
use std::alloc::Global;
use std::process::Abort;
use test_json_support::shown::show;
use winnow::error::ErrMode;
use winnow::stream::{Partial, StreamIsPartial};

/// A maximum nesting depth, bytes, the length of the value at their start, and the value as
/// Python's `json` reads it: `'` around each string, a comma after each item. The bytes after the
/// value do not matter, except after a number.
const ROWS: &[(usize, &[u8], usize, &str)] = &[
    (0, b"null", 4, "null"),
    (0, b"true,", 4, "true"),
    (0, b"falsey", 5, "false"),
    (0, b"\"\"", 2, "''"),
    (0, b"\"a\\\"]\\\\\"\"", 8, "'a\"]\\'"),
    (0, b"\"\\u0041\\ud834\\udd1e\" ", 20, "'A\u{1d11e}'"),
    (0, b"\"\xc3\xa9\xe2\x82\xac\xf0\x9d\x84\x9e\"\xff", 11, "'\u{e9}\u{20ac}\u{1d11e}'"),
    (1, b"[]]", 2, "[]"),
    (1, b"[1]2", 3, "[1,]"),
    (1, b"[1].5", 3, "[1,]"),
    (1, b"{ }", 3, "{}"),
    (1, b"[ \"]\" , \"[{\" ]\xff", 14, "[']','[{',]"),
    (1, b"{\"a\" : 1 , \"a\":\"}\"}\n", 19, "{'a':1,'a':'}',}"),
    (2, b"[[],{}]", 7, "[[],{},]"),
    (3, b"{\"a\":[{\"b\":-0.5e+07}]}}", 22, "{'a':[{'b':-0.5e+07,},],}"),
    (9, b"[[[[]]],[[2]]]", 14, "[[[[],],],[[2,],],]"),
];

/// Likewise for numbers, with the number of bytes after which the value is returned.
const NUMBERS: &[(&[u8], usize, usize, &str)] = &[
    (b"0 ", 1, 2, "0"),
    (b"-12,", 3, 4, "-12"),
    (b"1.50]", 4, 5, "1.50"),
    (b"1e5\n", 3, 4, "1e5"),
    (b"0.0E-0}", 6, 7, "0.0E-0"),
    (b"1-2 ", 1, 2, "1"),
    (b"0-", 1, 2, "0"),
    (b"12+", 2, 3, "12"),
    (b"-1.5e3+1", 6, 7, "-1.5e3"),
    (b"7\"", 1, 2, "7"),
    (b"7[", 1, 2, "7"),
    (b"12x", 2, 3, "12"),
];

/// A maximum nesting depth, bytes that do not start with a value of that depth regardless of what
/// follows, and the length of the shortest prefix that is rejected.
const NONE: &[(usize, &[u8], usize)] = &[
    (0, b" 1", 1),
    (0, b",", 1),
    (0, b"]", 1),
    (0, b"+1", 1),
    (0, b".5", 1),
    (0, b"Null", 1),
    (0, b"\xef\xbb\xbf1", 1),
    (0, b"nulk", 4),
    (0, b"nall", 2),
    (0, b"falsy", 5),
    (0, b"tru ", 4),
    (0, b"f\xc3\xa9", 2),
    (0, b"01 ", 2),
    (0, b"-x", 2),
    (0, b"1. ", 3),
    (0, b"1.5.2 ", 4),
    (0, b"1e]", 3),
    (0, b"[]", 1),
    (1, b"[[]]", 2),
    (1, b"[1}", 3),
    (1, b"[1,]", 4),
    (1, b"{\"a\" 1}", 6),
    (1, b"{a:1}", 2),
    (0, b"\"\x01\"", 2),
    (0, b"\"\\x\"", 3),
    (0, b"\"\\ud834\"", 8),
    (0, b"\"\\udd1e\\ud834\"", 5),
    (0, b"\"\xff\"", 2),
    (0, b"\"\xc3\"", 3),
    (0, b"\"\xed\xa0\x80\"", 3),
    (0, b"\"\xc0\xaf\"", 2),
    (2, b"[\"\xe2\x82\", [1]]", 5),
    (9, b"[x]", 2),
    (9, b"[1,,2]", 4),
    (9, b"{1:2}", 2),
    (9, b"{\"a\":1,}", 8),
    (9, b"{\"a\":1]", 7),
    (9, b"[}", 2),
    (9, b"[01]", 3),
    (9, b"[-]", 3),
    (9, b"[1.]", 4),
    (9, b"[1e+]", 5),
    (9, b"[nuls]", 5),
    (9, b"{\"\\u12g4\":1}", 7),
    (9, b"[\"\\ud834\\t", 10),
    (9, b"[\"\\ud834\\ud834\"]", 12),
    (9, b"\"\xe0\x80\x80\"", 3),
    (9, b"\"\xf0\x80\"", 3),
    (9, b"\"\xf4\x90\"", 3),
    (9, b"\"\xf5\"", 2),
    (2, b"[{\"a\":[", 7),
];

/// The outcome of a read.
#[derive(Drop)]
enum Outcome {
    /// A value, and how many bytes it took.
    Reads(Value<Global>, usize),
    /// The result is `Incomplete`.
    Asks,
    /// The bytes do not start with a value.
    None,
}

/// Reads bytes, to which more may be added if `cut`.
fn read(rt: &impl Abort, alloc: Global, level: usize, bytes: &[u8], cut: bool) -> Outcome {
    let mut input = Partial::new(bytes);
    input.restore_partial(cut);
    let answer = read_value_in_pieces(alloc, level, &mut input);
    assert_eq!(rt; input.is_partial(), cut);
    let left = *input.as_inner();
    match answer {
        Ok(value) => Outcome::Reads(value, bytes.len() - left.len()),
        Err(error) => {
            assert_eq!(rt; left, bytes);
            match error {
                ErrMode::Incomplete(_) => Outcome::Asks,
                _ => Outcome::None,
            }
        }
    }
}

/// Checks that a read returns this value and consumes `length` bytes.
fn reads(rt: &impl Abort, alloc: Global, outcome: &Outcome, length: usize, want: &str) {
    match outcome {
        Outcome::Reads(value, taken) => {
            let mut into = String::new(alloc);
            assert!(rt; show(value, &mut into).is_ok());
            assert_eq!(rt; into.as_str(), want);
            assert_eq!(rt; *taken, length, "{want}");
        }
        _ => assert!(rt; false, "{want}"),
    }
}

#[test]
fn read_value_at_every_cut(rt: HostRuntime) {
    for (level, bytes, length, want) in ROWS {
        for cut in 0..bytes.len() + 1 {
            let outcome = read(&rt, rt.alloc(), *level, &bytes[..cut], true);
            if cut < *length {
                assert!(rt; matches!(outcome, Outcome::Asks), "{bytes:?} {cut}");
            } else {
                reads(&rt, rt.alloc(), &outcome, *length, want);
            }
        }
    }
}

#[test]
fn read_value_of_a_number_at_every_cut(rt: HostRuntime) {
    for (bytes, length, known, want) in NUMBERS {
        for cut in 0..bytes.len() + 1 {
            let outcome = read(&rt, rt.alloc(), 0, &bytes[..cut], true);
            if cut < *known {
                assert!(rt; matches!(outcome, Outcome::Asks), "{bytes:?} {cut}");
            } else {
                reads(&rt, rt.alloc(), &outcome, *length, want);
            }
        }
        let whole = read(&rt, rt.alloc(), 0, &bytes[..*length], false);
        reads(&rt, rt.alloc(), &whole, *length, want);
    }
}

#[test]
fn read_value_of_a_complete_input(rt: HostRuntime) {
    for (level, bytes, length, want) in ROWS {
        for cut in 0..bytes.len() + 1 {
            let outcome = read(&rt, rt.alloc(), *level, &bytes[..cut], false);
            if cut < *length {
                assert!(rt; matches!(outcome, Outcome::None), "{bytes:?} {cut}");
            } else {
                reads(&rt, rt.alloc(), &outcome, *length, want);
            }
        }
    }
}

#[test]
fn read_value_refuses(rt: HostRuntime) {
    for (level, bytes, known) in NONE {
        for cut in 0..bytes.len() + 1 {
            let outcome = read(&rt, rt.alloc(), *level, &bytes[..cut], true);
            if cut < *known {
                assert!(rt; matches!(outcome, Outcome::Asks), "{bytes:?} {cut}");
            } else {
                assert!(rt; matches!(outcome, Outcome::None), "{bytes:?} {cut}");
            }
        }
        let whole = read(&rt, rt.alloc(), *level, bytes, false);
        assert!(rt; matches!(whole, Outcome::None), "{bytes:?}");
    }
}
