//! Values as text: compact, and over several lines.
use format_json::{SAFE_DEPTH, Value, JsonWriteError, from_text, to_text, to_text_pretty};
use std::alloc::Global;

/// A text, and as Python's `json.dumps` lays it out with an indent of two.
const ROWS: &[(&str, &str)] = &[
    ("null", "null"),
    (" 1.50 ", "1.50"),
    ("\"\\u00e9\\n\"", "\"\u{e9}\\n\""),
    ("[ ]", "[]"),
    ("{ }", "{}"),
    ("[1,2]", "[\n  1,\n  2\n]"),
    ("{\"a\":1,\"b\":[]}", "{\n  \"a\": 1,\n  \"b\": []\n}"),
    ("[[],[{}],{\"a\":[true]}]",
     "[\n  [],\n  [\n    {}\n  ],\n  {\n    \"a\": [\n      true\n    ]\n  }\n]"),
];

#[test]
fn texts_over_lines(rt: HostRuntime) {
    for row in ROWS {
        let (text, want) = *row;
        let Ok(value) = from_text(rt.alloc(), SAFE_DEPTH, text) else {
            return assert!(rt; false, "{text:?}");
        };
        match to_text_pretty(rt.alloc(), SAFE_DEPTH, 2, &value) {
            Ok(written) => {
                assert_eq!(rt; written.as_str(), want);
                let again = from_text(rt.alloc(), SAFE_DEPTH, written.as_str());
                assert!(rt; matches!(again, Ok(again) if again == value), "{text:?}");
            }
            Err(_) => assert!(rt; false, "{text:?}"),
        }
        match to_text(rt.alloc(), SAFE_DEPTH, &value) {
            Ok(written) => {
                let again = from_text(rt.alloc(), SAFE_DEPTH, written.as_str());
                assert!(rt; matches!(again, Ok(again) if again == value), "{text:?}");
            }
            Err(_) => assert!(rt; false, "{text:?}"),
        }
    }
}

#[test]
fn values_that_are_not_written(rt: HostRuntime) {
    let number: Value<Global> = Value::Number(String::from_str(rt.alloc(), "01").unwrap());
    assert!(rt; to_text(rt.alloc(), 1, &number).err() == Some(JsonWriteError::NotANumber));
    assert!(rt; to_text_pretty(rt.alloc(), 1, 2, &number).err() == Some(JsonWriteError::NotANumber));
    let Ok(nested) = from_text(rt.alloc(), 2, "[[]]") else {
        return assert!(rt; false);
    };
    assert!(rt; to_text(rt.alloc(), 1, &nested).err() == Some(JsonWriteError::TooDeep));
    assert!(rt; to_text_pretty(rt.alloc(), 1, 2, &nested).err() == Some(JsonWriteError::TooDeep));
    let said = format!(in rt.alloc(); "{}", JsonWriteError::TooDeep);
    assert!(rt; matches!(said, Ok(said) if said.as_str() == "nested too deep"));
}
