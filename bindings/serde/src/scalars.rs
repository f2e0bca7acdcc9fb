//! Numbers, as visitors take them.
use crate::Error;
use pergidau::json::Value;
use serde::de::{self, Unexpected, Visitor};

/// A number, as `serde_json` gives it to visitors.
#[derive(Clone, Copy)]
pub(crate) enum Number {
    Natural(u64),
    Negative(i64),
    /// A number with a point or an exponent, an integer that does not fit the others, or `-0`.
    Float(f64),
}

impl Number {
    /// Returns the integer that a number is written as, if it fits. `-0` is not an integer, since
    /// integers have no such value.
    fn integer(value: Value<'_>) -> Option<Number> {
        if value.text().starts_with('-') {
            value.as_i64().filter(|it| *it != 0).map(Number::Negative)
        } else {
            value.as_u64().map(Number::Natural)
        }
    }

    /// Returns the integer or the nearest double. If that is infinite, returns an error.
    pub(crate) fn of(value: Value<'_>) -> Result<Number, Error> {
        Number::integer(value)
            .or_else(|| value.as_f64().filter(|it| it.is_finite()).map(Number::Float))
            .ok_or_else(out_of_range)
    }

    /// Returns what it is in the messages of serde.
    pub(crate) fn unexpected(self) -> Unexpected<'static> {
        match self {
            Number::Natural(number) => Unexpected::Unsigned(number),
            Number::Negative(number) => Unexpected::Signed(number),
            Number::Float(number) => Unexpected::Float(number),
        }
    }

    fn visit<'de, V: Visitor<'de>>(self, visitor: V) -> Result<V::Value, Error> {
        match self {
            Number::Natural(number) => visitor.visit_u64(number),
            Number::Negative(number) => visitor.visit_i64(number),
            Number::Float(number) => visitor.visit_f64(number),
        }
    }
}

#[cold]
fn out_of_range() -> Error {
    de::Error::custom("number out of range")
}

/// Gives a visitor the integer or the nearest double.
pub(crate) fn number<'de, V: Visitor<'de>>(
    value: Value<'_>,
    visitor: V,
) -> Result<V::Value, Error> {
    Number::of(value)?.visit(visitor)
}

/// Gives a visitor the integer, or the nearest number of single precision. (The nearest one of the
/// nearest double may be another.)
pub(crate) fn single<'de, V: Visitor<'de>>(
    value: Value<'_>,
    visitor: V,
) -> Result<V::Value, Error> {
    if let Some(integer) = Number::integer(value) {
        return integer.visit(visitor);
    }
    match value.text().parse::<f32>() {
        Ok(number) if number.is_finite() => visitor.visit_f32(number),
        _ => Err(out_of_range()),
    }
}

/// Gives a visitor an integer of 128 bits.
pub(crate) fn signed128<'de, V: Visitor<'de>>(
    value: Value<'_>,
    visitor: V,
) -> Result<V::Value, Error> {
    match value.text().parse() {
        Ok(number) => visitor.visit_i128(number),
        Err(_) => Err(not_128(value, &visitor)),
    }
}

/// Gives a visitor an integer of 128 bits without a sign.
pub(crate) fn unsigned128<'de, V: Visitor<'de>>(
    value: Value<'_>,
    visitor: V,
) -> Result<V::Value, Error> {
    match value.text().parse() {
        Ok(number) => visitor.visit_u128(number),
        Err(_) => Err(not_128(value, &visitor)),
    }
}

/// Returns the error of a number that has a point or an exponent, or does not fit 128 bits.
#[cold]
fn not_128(value: Value<'_>, expected: &dyn de::Expected) -> Error {
    if value.text().contains(['.', 'e', 'E']) {
        return match Number::of(value) {
            Ok(number) => de::Error::invalid_type(number.unexpected(), expected),
            Err(error) => error,
        };
    }
    out_of_range()
}
