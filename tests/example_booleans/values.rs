//! Formulas, their values and the remaining input.
use std::process::Abort;
use stream_errors::empty::EmptyError;
use stream_errors::parser_error::ParserError;
use test_support::refusing::Refusing;
use example_booleans::booleans::truth;
use example_booleans::statements::{formula, statement};

/// A formula, its value or `None`, and the rest of the input.
const ROWS: &[(&str, Option<bool>, &str)] = &[
    ("t", Some(true), ""),
    ("f", Some(false), ""),
    ("!t", Some(false), ""),
    ("f'", Some(true), ""),
    ("f''", Some(false), ""),
    ("!!t", Some(true), ""),
    // a prefix binds one operand
    ("!t&f", Some(false), ""),
    ("!t|t", Some(true), ""),
    // the stronger operator first
    ("t|t&f", Some(true), ""),
    ("f&t|t", Some(true), ""),
    ("f=t|t", Some(false), ""),
    ("t|f=f", Some(false), ""),
    ("!t|t&f'=t", Some(true), ""),
    // equalities are not joined
    ("t=t=f", Some(true), "=f"),
    ("f=t&t=t", Some(false), "=t"),
    // with input after the formula
    ("tt", Some(true), "t"),
    ("t!f", Some(true), "!f"),
    ("t x", Some(true), " x"),
    // no formula
    ("", None, ""),
    ("x", None, "x"),
    ("t&", None, ""),
    ("t|x", None, "x"),
    ("!", None, ""),
    ("t=&", None, "&"),
];

/// Returns the value, or `None` after an error. The error must not be out of memory.
fn said(rt: &impl Abort, text: &str, answer: Result<bool, EmptyError>) -> Option<bool> {
    match answer {
        Ok(value) => Some(value),
        Err(error) => {
            assert!(rt; !ParserError::<&[u8]>::is_memory(&error), "{text:?}");
            None
        }
    }
}

#[test]
fn truth_of_formulas(rt: HostRuntime) {
    for (text, want, left) in ROWS {
        let mut input = text.as_bytes();
        let got = said(&rt, text, truth(rt.alloc(), &mut input));
        assert_eq!(rt; got, *want, "{text:?}");
        assert_eq!(rt; input, left.as_bytes(), "{text:?}");
    }
}

/// A formula of operands and postfixes does not allocate; the others return an error if their
/// allocation fails.
#[test]
fn truth_wants_memory(rt: HostRuntime) {
    let heap = Refusing::always_from(rt.alloc(), 0);
    let mut input = b"f'".as_slice();
    assert_eq!(rt; said(&rt, "f'", truth(&heap, &mut input)), Some(true));
    for text in ["!t", "t&t"] {
        let mut input = text.as_bytes();
        match truth(&heap, &mut input) {
            Ok(_) => assert!(rt; false, "{text:?}"),
            Err(error) => assert!(rt; ParserError::<&[u8]>::is_memory(&error), "{text:?}"),
        }
    }
    let mut met = true;
    let mut n = 0u64;
    while met {
        let heap = Refusing::once(rt.alloc(), n);
        let mut input = b"!t|t&f'=t".as_slice();
        let answer = truth(&heap, &mut input);
        met = heap.met();
        match answer {
            Ok(value) => assert!(rt; !met && value, "{n}"),
            Err(error) => assert!(rt; met && ParserError::<&[u8]>::is_memory(&error), "{n}"),
        }
        n += 1;
    }
    assert!(rt; n > 1);
}

/// The rule `formula` accepts the same formulas; `statement` accepts a formula followed by a
/// semicolon.
#[test]
fn statements_are_formulas(rt: HostRuntime) {
    for (text, want, left) in ROWS {
        let mut input = text.as_bytes();
        assert_eq!(rt; said(&rt, text, formula(rt.alloc(), &mut input)), *want, "{text:?}");
        if want.is_some() {
            assert_eq!(rt; input, left.as_bytes(), "{text:?}");
        }
    }
    let rows: &[(&str, Option<bool>, &str)] = &[
        ("t;", Some(true), ""),
        ("!t|t&f'=t;f", Some(true), "f"),
        ("t", None, ""),
        ("t,", None, ""),
        // the formula ends before the second equality sign, where a semicolon is expected
        ("t=t=f;", None, ""),
        (";", None, ""),
    ];
    for (text, want, left) in rows {
        let mut input = text.as_bytes();
        assert_eq!(rt; said(&rt, text, statement(rt.alloc(), &mut input)), *want, "{text:?}");
        if want.is_some() {
            assert_eq!(rt; input, left.as_bytes(), "{text:?}");
        }
    }
}
