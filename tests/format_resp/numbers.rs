//! Integers, and texts of doubles and big numbers, by the protocol's specification.
use crate::replies::same;
use format_resp::numbers::{is_big_number, is_double, number_of};

const DOUBLES: &[&[u8]] = &[
    b"1.23", b"10", b"inf", b"-inf", b"nan", b"-nan", b"0", b"-0", b"+1", b"007", b"1e20", b"1E+20",
    b"-1.25e-3", b"0.10000000000000001", b"17179869184", b"9e0",
];

const NO_DOUBLES: &[&[u8]] = &[
    b"", b"+", b"-", b".", b".5", b"5.", b"1.e5", b"1e", b"1e+", b"1e+-5", b"e5", b"+inf", b"+nan",
    b"infinity", b"INF", b"1 ", b" 1", b"1.2.3", b"1e5.5", b"1e5e5", b"0x10", b"--1", b"1\0",
];

const BIG_NUMBERS: &[&[u8]] = &[
    b"3492890328409238509324850943850943825024385", b"-1", b"+1", b"0", b"00", b"-0",
];

const NO_BIG_NUMBERS: &[&[u8]] = &[
    b"", b"-", b"+-1", b"1.5", b"1e5", b"1 ", b" 1", b"inf", b"1a", b"/", b":",
];

#[test]
fn is_double_of_texts(rt: HostRuntime) {
    for text in DOUBLES {
        same(&rt, text, is_double(text), true);
    }
    for text in NO_DOUBLES {
        same(&rt, text, is_double(text), false);
    }
}

#[test]
fn is_big_number_of_texts(rt: HostRuntime) {
    for text in BIG_NUMBERS {
        same(&rt, text, is_big_number(text), true);
    }
    for text in NO_BIG_NUMBERS {
        same(&rt, text, is_big_number(text), false);
    }
}

#[test]
fn number_of_lines(rt: HostRuntime) {
    let rows: [(&[u8], Option<i64>); 17] = [
        (b"0", Some(0)),
        (b"-7", Some(-7)),
        (b"+7", Some(7)),
        (b"9223372036854775807", Some(i64::MAX)),
        (b"-9223372036854775808", Some(i64::MIN)),
        (b"9223372036854775808", None),
        (b"-", None),
        (b"-9223372036854775809", None),
        (b"18446744073709551616", None),
        (b"-18446744073709551617", None),
        (b"07", Some(7)),
        (b"-0", Some(0)),
        (b"+000", Some(0)),
        (b"-007", Some(-7)),
        (b"+-7", None),
        (b"7 ", None),
        (b"1.5", None),
    ];
    for (line, want) in rows {
        same(&rt, line, number_of(line), want);
    }
}
