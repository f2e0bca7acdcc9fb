//! Values as text, for rows of tests.
use format_json_texts::value::Value;
use std::alloc::{AllocError, Allocator, Global};

/// Writes a text between quotes, as it is.
fn show_text(text: &str, into: &mut String<Global>) -> Result<(), AllocError> {
    into.push_str("'")?;
    into.push_str(text)?;
    into.push_str("'")
}

/// Writes a value without whitespace, its strings as they are.
pub fn show<A: Allocator>(value: &Value<A>, into: &mut String<Global>) -> Result<(), AllocError> {
    match value {
        Value::Null => into.push_str("null"),
        Value::Boolean(is) => into.push_str(if *is { "true" } else { "false" }),
        Value::Number(digits) => into.push_str(digits.as_str()),
        Value::Text(text) => show_text(text.as_str(), into),
        Value::Array(items) => {
            into.push_str("[")?;
            for item in items {
                show(item, into)?;
                into.push_str(",")?;
            }
            into.push_str("]")
        }
        Value::Object(members) => {
            into.push_str("{")?;
            for member in members {
                let (name, item) = member;
                show_text(name.as_str(), into)?;
                into.push_str(":")?;
                show(item, into)?;
                into.push_str(",")?;
            }
            into.push_str("}")
        }
    }
}
