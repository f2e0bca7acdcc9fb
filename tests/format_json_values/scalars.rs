//! Values that have no others in them.

use format_json_values::scalar::read_scalar;
use format_json_texts::value::Value;

/// The value that a row expects.
#[derive(Drop)]
enum Is {
    Null,
    Boolean(bool),
    Number(&'static str),
    Text(&'static str),
    Nothing,
}

/// Returns whether a value is the expected one.
fn is<A: std::alloc::Allocator>(value: &Value<A>, expected: &Is) -> bool {
    match (value, expected) {
        (Value::Null, Is::Null) => true,
        (Value::Boolean(value), Is::Boolean(expected)) => *value == *expected,
        (Value::Number(text), Is::Number(expected)) => text.as_str() == *expected,
        (Value::Text(text), Is::Text(expected)) => text.as_str() == *expected,
        _ => false,
    }
}

#[test]
fn scalars_are_told_by_their_first_character(rt: HostRuntime) {
    let rows = [
        ("null", Is::Null, ""),
        ("true,", Is::Boolean(true), ","),
        ("false]", Is::Boolean(false), "]"),
        ("nullx", Is::Null, "x"),
        ("-0.5e1 ", Is::Number("-0.5e1"), " "),
        ("07", Is::Number("0"), "7"),
        ("\"true\"}", Is::Text("true"), "}"),
        ("\"\\u006eull\"", Is::Text("null"), ""),
        ("nul", Is::Nothing, "nul"),
        ("True", Is::Nothing, "True"),
        ("NaN", Is::Nothing, "NaN"),
        ("-Infinity", Is::Nothing, "-Infinity"),
        ("'a'", Is::Nothing, "'a'"),
        ("\"a", Is::Nothing, "\"a"),
        (" null", Is::Nothing, " null"),
        ("[]", Is::Nothing, "[]"),
        ("{}", Is::Nothing, "{}"),
        ("", Is::Nothing, ""),
    ];
    for row in rows {
        let (text, expected, left) = row;
        let mut input = text;
        match (read_scalar(rt.alloc(), &mut input), expected) {
            (Err(_), Is::Nothing) => {}
            (Ok(value), expected) => {
                assert!(rt; is(&value, &expected));
                assert_eq!(rt; input, left);
            }
            _ => assert!(rt; false),
        }
    }
}
