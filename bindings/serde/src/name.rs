//! The names of members, as keys of maps.
use crate::variant::Variant;
use crate::{scalars, Deserializer, Error};
use pergidau::json::{self, Value};
use serde::de::{self, Visitor};
use serde::forward_to_deserialize_any;

/// The name of a member. Besides strings and enums, it can be a number or a boolean in quotes.
pub(crate) struct Name<'de, 'a>(pub(crate) Deserializer<'de, 'a>);

impl<'de> Name<'de, '_> {
    /// Returns the number in the quotes.
    fn number(&self) -> Result<Value<'de>, Error> {
        let text = self.0.between_quotes();
        let digit = |it: char| it.is_ascii_digit();
        // (so there is no whitespace, and it is not another value)
        let is_number = text.starts_with(|it| digit(it) || it == '-') && text.ends_with(digit);
        is_number.then(|| json::parse(text, 0).ok()).flatten().ok_or_else(|| {
            de::Error::custom("invalid value: expected key to be a number in quotes")
        })
    }
}

/// Defines methods for numbers in quotes.
macro_rules! numbers {
    ($($method:ident => $visit:ident,)*) => {$(
        fn $method<V: Visitor<'de>>(self, visitor: V) -> Result<V::Value, Error> {
            let found = self.number().and_then(|number| scalars::$visit(number, visitor));
            self.0.placed(found)
        }
    )*};
}

impl<'de> de::Deserializer<'de> for Name<'de, '_> {
    type Error = Error;

    fn deserialize_any<V: Visitor<'de>>(self, visitor: V) -> Result<V::Value, Error> {
        self.0.deserialize_str(visitor)
    }

    numbers! {
        deserialize_i8 => number,
        deserialize_i16 => number,
        deserialize_i32 => number,
        deserialize_i64 => number,
        deserialize_u8 => number,
        deserialize_u16 => number,
        deserialize_u32 => number,
        deserialize_u64 => number,
        deserialize_f64 => number,
        deserialize_f32 => single,
        deserialize_i128 => signed128,
        deserialize_u128 => unsigned128,
    }

    fn deserialize_bool<V: Visitor<'de>>(self, visitor: V) -> Result<V::Value, Error> {
        let found = match self.0.between_quotes() {
            "true" => visitor.visit_bool(true),
            "false" => visitor.visit_bool(false),
            _ => Err(self.0.mismatch(&visitor)),
        };
        self.0.placed(found)
    }

    fn deserialize_option<V: Visitor<'de>>(self, visitor: V) -> Result<V::Value, Error> {
        // A name is never null.
        visitor.visit_some(self)
    }

    fn deserialize_newtype_struct<V: Visitor<'de>>(
        self,
        _: &'static str,
        visitor: V,
    ) -> Result<V::Value, Error> {
        visitor.visit_newtype_struct(self)
    }

    fn deserialize_enum<V: Visitor<'de>>(
        self,
        _: &'static str,
        _: &'static [&'static str],
        visitor: V,
    ) -> Result<V::Value, Error> {
        let found = visitor.visit_enum(Variant { name: self.0, value: None });
        self.0.placed(found)
    }

    fn deserialize_bytes<V: Visitor<'de>>(self, visitor: V) -> Result<V::Value, Error> {
        self.0.deserialize_bytes(visitor)
    }

    fn deserialize_byte_buf<V: Visitor<'de>>(self, visitor: V) -> Result<V::Value, Error> {
        self.0.deserialize_bytes(visitor)
    }

    forward_to_deserialize_any! {
        char str string unit unit_struct seq tuple tuple_struct map struct identifier ignored_any
    }
}
