//! Integers: the cases of toml-test (valid/integer, invalid/integer), by their names. The expected
//! values are those of toml-test, and of Python's `tomllib`.
use crate::shown::show;
use std::process::Abort;
use format_toml::lines::parse_lines;

/// A case, its document, and its lines as text, with a bar after each.
const VALID: &[(&str, &str, &str)] = &[
    (
        "integer",
        "answer = 42\nposanswer = +42\nneganswer = -42\nzero = 0",
        "answer=42|posanswer=42|neganswer=-42|zero=0|",
    ),
    (
        "literals",
        "bin1 = 0b11010110\nbin2 = 0b1_0_1\noct1 = 0o01234567\noct2 = 0o755\noct3 = 0o7_6_5\n\
         hex1 = 0xDEADBEEF\nhex2 = 0xdeadbeef\nhex3 = 0xdead_beef\nhex4 = 0x00987",
        "bin1=214|bin2=5|oct1=342391|oct2=493|oct3=501|hex1=3735928559|hex2=3735928559|\
         hex3=3735928559|hex4=2439|",
    ),
    (
        "long",
        "int64-max = 9223372036854775807\nint64-max-neg = -9223372036854775808",
        "int64-max=9223372036854775807|int64-max-neg=-9223372036854775808|",
    ),
    ("underscore", "kilo = 1_000\nx = 1_1_1_1", "kilo=1000|x=1111|"),
    (
        "zero",
        "d1 = 0\nd2 = +0\nd3 = -0\nh1 = 0x0\nh2 = 0x00\nh3 = 0x00000\no1 = 0o0\na2 = 0o00\na3 = 0o00000\n\
         b1 = 0b0\nb2 = 0b00\nb3 = 0b00000",
        "d1=0|d2=0|d3=0|h1=0|h2=0|h3=0|o1=0|a2=0|a3=0|b1=0|b2=0|b3=0|",
    ),
];

/// A case, and its document, which is invalid. `tests/format_toml_document` has more of toml-test.
const INVALID: &[(&str, &str)] = &[
    ("invalid-bin-2", "a = 0b__1"),
    ("invalid-hex-1", "invalid-hex-1 = 0xaafz"),
    ("invalid-hex-2", "invalid-hex-2 = 0xgabba00f1"),
    ("leading-zero-sign-1", "leading-zero-sign-1 = -01"),
    ("leading-zero-sign-2", "leading-zero-sign-2 = +01"),
    ("leading-zero-sign-3", "leading-zero-sign-3 = +0_1"),
    ("negative-oct", "negative-oct = -0o755"),
    ("positive-oct", "positive-oct = +0o755"),
];

fn same(rt: &impl Abort, case: &str, got: &str, want: &str) {
    assert_eq!(rt; got, want, "{case}");
}

#[test]
fn integers_of_toml_test_are_read(rt: HostRuntime) {
    for (case, text, want) in VALID {
        let mut into = String::new(rt.alloc());
        if let Ok(lines) = parse_lines(rt.alloc(), 0, text) {
            for line in &lines {
                assert!(rt; show(line, &mut into).is_ok());
            }
        }
        same(&rt, case, into.as_str(), want);
    }
}

#[test]
fn integers_that_toml_test_refuses_are_refused(rt: HostRuntime) {
    for (case, text) in INVALID {
        assert!(rt; parse_lines(rt.alloc(), 0, text).is_err(), "{case}");
    }
}
