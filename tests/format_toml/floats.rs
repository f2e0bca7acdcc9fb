//! Floats: the examples of TOML 1.0 (Float), and the cases of toml-test (valid/float,
//! invalid/float), by their names. The expected values are those of toml-test.
use crate::shown::show;
use std::process::Abort;
use format_toml::lines::parse_lines;

/// A case, its document, and its lines as text, with a bar after each.
const VALID: &[(&str, &str, &str)] = &[
    (
        "the standard, fractional",
        "flt1 = +1.0\nflt2 = 3.1415\nflt3 = -0.01",
        "flt1=+1.0|flt2=3.1415|flt3=-0.01|",
    ),
    (
        "the standard, exponent",
        "flt4 = 5e+22\nflt5 = 1e06\nflt6 = -2E-2",
        "flt4=5e+22|flt5=1e06|flt6=-2E-2|",
    ),
    ("the standard, both", "flt7 = 6.626e-34", "flt7=6.626e-34|"),
    ("the standard, underscores", "flt8 = 224_617.445_991_228", "flt8=224617.445991228|"),
    (
        "the standard, infinity",
        "sf1 = inf\nsf2 = +inf\nsf3 = -inf",
        "sf1=inf|sf2=+inf|sf3=-inf|",
    ),
    (
        "the standard, not a number",
        "sf4 = nan\nsf5 = +nan\nsf6 = -nan",
        "sf4=nan|sf5=+nan|sf6=-nan|",
    ),
    (
        "exponent",
        "lower = 3e2\nupper = 3E2\nneg = 3e-2\npos = 3E+2\nzero = 3e0\npointlower = 3.1e2\n\
         pointupper = 3.1E2\nminustenth = -1E-1",
        "lower=3e2|upper=3E2|neg=3e-2|pos=3E+2|zero=3e0|pointlower=3.1e2|pointupper=3.1E2|\
         minustenth=-1E-1|",
    ),
    ("exponent, leading zeros", "a = 3e0_0\nb = 0e00", "a=3e00|b=0e00|"),
    (
        "float",
        "pi = 3.14\npospi = +3.14\nnegpi = -3.14\nzero-intpart = 0.123",
        "pi=3.14|pospi=+3.14|negpi=-3.14|zero-intpart=0.123|",
    ),
    ("long", "longpi = 3.141592653589793", "longpi=3.141592653589793|"),
    ("max-int", "max_float = 9_007_199_254_740_991.0", "max_float=9007199254740991.0|"),
    (
        "underscore",
        "before = 3_141.5927\nafter = 3141.592_7\nexponent = 3e1_4",
        "before=3141.5927|after=3141.5927|exponent=3e14|",
    ),
    (
        "zero",
        "zero = 0.0\nsigned-pos = +0.0\nsigned-neg = -0.0\nexponent = 0e0\nexponent-two-0 = 0e00\n\
         exponent-signed-pos = +0e0\nexponent-signed-neg = -0e0",
        "zero=0.0|signed-pos=+0.0|signed-neg=-0.0|exponent=0e0|exponent-two-0=0e00|\
         exponent-signed-pos=+0e0|exponent-signed-neg=-0e0|",
    ),
    ("in an array", "a = [1.5, inf,nan , 2]", "a=[1.5,inf,nan,2,]|"),
];

/// A case, and its document, which is invalid. `tests/format_toml_document` has more of toml-test.
const INVALID: &[(&str, &str)] = &[
    ("exp-trailing-us-1", "exp-trailing-us-1 = 1_e2"),
    ("exp-trailing-us-2", "exp-trailing-us-2 = 1.2_e2"),
    ("leading-dot-neg", "leading-dot-neg = -.12345"),
    ("leading-dot-plus", "leading-dot-plus = +.12345"),
    ("leading-zero-neg", "leading-zero-neg = -03.14"),
    ("leading-zero-plus", "leading-zero-plus = +03.14"),
    ("nan-incomplete-1", "nan-incomplete-1 = na"),
    ("nan-incomplete-2", "nan-incomplete-2 = +na"),
    ("trailing-dot", "trailing-dot = 1."),
    ("trailing-dot-min", "trailing-dot-min = -1."),
    ("trailing-dot-plus", "trailing-dot-plus = +1."),
    ("trailing-exp", "trailing-exp = 0.1e"),
    ("trailing-exp-minus", "trailing-exp-minus = 0.1e-"),
    ("trailing-exp-plus", "trailing-exp-plus = 0.1e+"),
    ("trailing-us", "trailing-us = 1.2_"),
    ("trailing-us-exp-1", "trailing-us-exp-1 = 1_e2"),
    ("us-after-dot", "us-after-dot = 1._2"),
    ("us-before-dot", "us-before-dot = 1_.2"),
    ("double sign", "a = --1.5"),
    ("double sign before a word", "a = +-inf"),
];

fn same(rt: &impl Abort, case: &str, got: &str, want: &str) {
    assert_eq!(rt; got, want, "{case}");
}

#[test]
fn floats_of_toml_test_are_read(rt: HostRuntime) {
    for (case, text, want) in VALID {
        let mut into = String::new(rt.alloc());
        if let Ok(lines) = parse_lines(rt.alloc(), 1, text) {
            for line in &lines {
                assert!(rt; show(line, &mut into).is_ok());
            }
        }
        same(&rt, case, into.as_str(), want);
    }
}

#[test]
fn floats_that_toml_test_refuses_are_refused(rt: HostRuntime) {
    for (case, text) in INVALID {
        assert!(rt; parse_lines(rt.alloc(), 0, text).is_err(), "{case}");
    }
}
