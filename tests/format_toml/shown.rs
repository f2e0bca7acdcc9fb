//! Documents as text, for rows of tests.
use std::alloc::{AllocError, Allocator, Global};
use format_toml_tree::value::{Date, DateTime, Item, Key, Offset, Time, Value};

/// Writes a text between quotes, as it is.
fn show_text(text: &str, into: &mut String<Global>) -> Result<(), AllocError> {
    into.push_str("'")?;
    into.push_str(text)?;
    into.push_str("'")
}

/// Writes the digits of a number, with a minus before them where it is negative.
fn show_number(number: i64, into: &mut String<Global>) -> Result<(), AllocError> {
    if number < 0 {
        into.push_str("-")?;
    }
    let mut scale = 1u64;
    while number.unsigned_abs() / scale > 9 {
        scale *= 10;
    }
    while scale > 0 {
        let digit = (number.unsigned_abs() / scale % 10) as u8;
        into.push(char::from(b'0' + digit))?;
        scale /= 10;
    }
    Ok(())
}

/// Writes the names of a key, with semicolons between them.
fn show_key<A: Allocator>(key: &Key<A>, into: &mut String<Global>) -> Result<(), AllocError> {
    let mut is_first = true;
    for name in &key.names {
        if !is_first {
            into.push_str(";")?;
        }
        into.push_str(name.as_str())?;
        is_first = false;
    }
    Ok(())
}

/// Writes three numbers with a mark between each two of them, with no zeros before them.
fn show_three(numbers: (u16, u8, u8), mark: &str, into: &mut String<Global>)
    -> Result<(), AllocError> {
    show_number(i64::from(numbers.0), into)?;
    into.push_str(mark)?;
    show_number(i64::from(numbers.1), into)?;
    into.push_str(mark)?;
    show_number(i64::from(numbers.2), into)
}

fn show_date(date: &Date, into: &mut String<Global>) -> Result<(), AllocError> {
    show_three((date.year, date.month, date.day), "-", into)
}

/// Writes a time, and the digits of its fraction after a point.
fn show_time<A: Allocator>(time: &Time<A>, into: &mut String<Global>) -> Result<(), AllocError> {
    show_three((u16::from(time.hour), time.minute, time.second), ":", into)?;
    if !time.fraction.is_empty() {
        into.push_str(".")?;
    }
    into.push_str(time.fraction.as_str())
}

/// Writes a date, a time or both, with a `T` between them, and an offset as `Z` or as `@` and
/// minutes.
fn show_date_time<A: Allocator>(
    both: &DateTime<A>,
    into: &mut String<Global>,
) -> Result<(), AllocError> {
    match both {
        DateTime::Offset(date, time, offset) => {
            show_date(date, into)?;
            into.push_str("T")?;
            show_time(time, into)?;
            match offset {
                Offset::Zulu => into.push_str("Z"),
                Offset::Minutes(minutes) => {
                    into.push_str("@")?;
                    show_number(i64::from(*minutes), into)
                }
            }
        }
        DateTime::Local(date, time) => {
            show_date(date, into)?;
            into.push_str("T")?;
            show_time(time, into)
        }
        DateTime::Date(date) => show_date(date, into),
        DateTime::Time(time) => show_time(time, into),
    }
}

/// Writes a value without whitespace, with a comma after each value of an array or an inline table.
fn show_value<A: Allocator>(
    value: &Value<A>,
    into: &mut String<Global>,
) -> Result<(), AllocError> {
    match value {
        Value::Text(text) => show_text(text.as_str(), into),
        Value::Integer(number) => show_number(*number, into),
        Value::Boolean(is) => into.push_str(if *is { "true" } else { "false" }),
        Value::Array(items) => {
            into.push_str("[")?;
            for item in items {
                show_value(item, into)?;
                into.push_str(",")?;
            }
            into.push_str("]")
        }
        Value::Table(pairs) => {
            into.push_str("{")?;
            for (key, value) in pairs {
                show_key(key, into)?;
                into.push_str("=")?;
                show_value(value, into)?;
                into.push_str(",")?;
            }
            into.push_str("}")
        }
        Value::Float(float) => into.push_str(float.text.as_str()),
        Value::DateTime(both) => show_date_time(both, into),
    }
}

/// Writes the statement of a line, and a bar after it.
pub fn show<A: Allocator>(
    item: &Item<A>,
    into: &mut String<Global>,
) -> Result<(), AllocError> {
    match item {
        Item::Table(name) => {
            into.push_str("[")?;
            show_key(name, into)?;
            into.push_str("]")?;
        }
        Item::Tables(name) => {
            into.push_str("[[")?;
            show_key(name, into)?;
            into.push_str("]]")?;
        }
        Item::Entry(key, value) => {
            show_key(key, into)?;
            into.push_str("=")?;
            show_value(value, into)?;
        }
    }
    into.push_str("|")
}
