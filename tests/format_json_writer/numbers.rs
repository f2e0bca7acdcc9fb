//! Numbers in values that were made by hand.
use format_json_texts::value::Value;
use format_json_writer::error::WriteError;
use format_json_writer::value::to_text;
use std::alloc::{AllocError, Global};

/// Texts of numbers by RFC 8259 (section 6).
const NUMBERS: &[&str] = &[
    "0",
    "-0",
    "7",
    "10",
    "-12",
    "0.0",
    "1.50",
    "1e5",
    "1E-05",
    "-1.5e+300",
    "123456789012345678901234567890",
];

/// Invalid JSON texts.
const NONE: &[&str] = &[
    "", "-", "+1", "01", "-01", "00", "1.", ".5", "1.e1", "1e", "1e+", "1e1.5", "0x1", "1_0", "1,0",
    " 1", "1 ", "1\n", "--1", "1-1", "NaN", "Infinity", "-Infinity", "null", "1]", "\u{ff11}", "1\u{e9}",
];

fn number(alloc: Global, text: &str) -> Result<Value<Global>, AllocError> {
    Ok(Value::Number(String::from_str(alloc, text)?))
}

/// `[true, NUMBER]`.
fn behind(alloc: Global, text: &str) -> Result<Value<Global>, AllocError> {
    let mut items = Vec::new(alloc);
    items.push(Value::Boolean(true))?;
    items.push(number(alloc, text)?)?;
    Ok(Value::Array(items))
}

/// `{"a": NUMBER}`.
fn named(alloc: Global, text: &str) -> Result<Value<Global>, AllocError> {
    let mut members = Vec::new(alloc);
    members.push((String::from_str(alloc, "a")?, number(alloc, text)?))?;
    Ok(Value::Object(members))
}

#[test]
fn to_text_of_numbers(rt: HostRuntime) {
    for text in NUMBERS {
        match number(rt.alloc(), text) {
            Ok(value) => match to_text(rt.alloc(), 0, &value) {
                Ok(written) => assert_eq!(rt; written.as_str(), *text),
                Err(_) => assert!(rt; false, "{text:?}"),
            },
            Err(_) => assert!(rt; false, "{text:?}"),
        }
    }
}

#[test]
fn to_text_refuses_what_is_no_number(rt: HostRuntime) {
    for text in NONE {
        let alone = number(rt.alloc(), text);
        let in_array = behind(rt.alloc(), text);
        let in_object = named(rt.alloc(), text);
        for value in [alone, in_array, in_object] {
            match value {
                Ok(value) => {
                    let written = to_text(rt.alloc(), 1, &value);
                    assert!(rt; matches!(written, Err(WriteError::Number)), "{text:?}");
                }
                Err(_) => assert!(rt; false, "{text:?}"),
            }
        }
    }
}

/// Of an invalid number and an array that is nested too deep, the first one is the error.
#[test]
fn to_text_tells_the_first(rt: HostRuntime) {
    let alloc = rt.alloc();
    let deep = behind(alloc, "01").and_then(|inner| {
        let mut items = Vec::new(alloc);
        items.push(inner)?;
        items.push(Value::Number(String::from_str(alloc, "02")?))?;
        Ok(Value::Array(items))
    });
    match deep {
        Ok(value) => {
            assert!(rt; matches!(to_text(alloc, 0, &value), Err(WriteError::Level)));
            assert!(rt; matches!(to_text(alloc, 1, &value), Err(WriteError::Level)));
            assert!(rt; matches!(to_text(alloc, 2, &value), Err(WriteError::Number)));
        }
        Err(_) => assert!(rt; false),
    }
}
