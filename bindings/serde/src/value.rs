//! The values of a document.
use crate::inside::Inside;
use crate::scalars::{self, Number};
use crate::variant::Variant;
use crate::{Document, Error};
use alloc::borrow::Cow;
use pergidau::json::{Item, Kind, Node};
use serde::de::{self, DeserializeSeed, Unexpected, Visitor};

/// A value of a [`Document`], as a [`serde::Deserializer`]. It can be deserialized several times.
///
/// ```
/// use serde::Deserialize;
///
/// let document = pergidau_serde::Document::parse("[1, 2]", 1)?;
/// let value = document.deserializer();
/// assert_eq!(<(u8, u8)>::deserialize(value)?, (1, 2));
/// assert_eq!(Vec::<f64>::deserialize(value)?, [1.0, 2.0]);
/// # Ok::<(), pergidau_serde::Error>(())
/// ```
#[derive(Clone, Copy, Debug)]
pub struct Deserializer<'de, 'a> {
    pub(crate) document: &'a Document<'de>,
    pub(crate) index: usize,
}

impl<'de, 'a> Deserializer<'de, 'a> {
    pub(crate) fn node(&self) -> &'a Node {
        &self.document.nodes.nodes().nodes()[self.index]
    }

    fn item(&self) -> Item<'a> {
        self.document.nodes.nodes().item(self.index).expect("the index of a node")
    }

    fn kind(&self) -> Kind {
        self.item().kind()
    }

    /// Returns the offset of its first byte.
    pub(crate) fn offset(&self) -> usize {
        self.node().start
    }

    /// Returns the text of a string between its quotes.
    pub(crate) fn between_quotes(&self) -> &'de str {
        let node = self.node();
        &self.document.text[node.start + 1..node.end - 1]
    }

    /// Returns a string with its escapes decoded.
    fn string(&self) -> Result<Cow<'de, str>, Error> {
        let text = self.between_quotes();
        if !text.contains('\\') {
            return Ok(Cow::Borrowed(text));
        }
        let text = self.item().value().to_str().map_err(de::Error::custom)?;
        Ok(Cow::Owned(text.unwrap_or_default().into_owned()))
    }

    fn visit_string<V: Visitor<'de>>(self, visitor: V) -> Result<V::Value, Error> {
        match self.string()? {
            Cow::Borrowed(text) => visitor.visit_borrowed_str(text),
            Cow::Owned(text) => visitor.visit_string(text),
        }
    }

    fn visit_bytes<V: Visitor<'de>>(self, visitor: V) -> Result<V::Value, Error> {
        match self.string()? {
            Cow::Borrowed(text) => visitor.visit_borrowed_bytes(text.as_bytes()),
            Cow::Owned(text) => visitor.visit_byte_buf(text.into_bytes()),
        }
    }

    /// Adds the offset of this value to an error that has none.
    pub(crate) fn placed<T>(self, found: Result<T, Error>) -> Result<T, Error> {
        found.map_err(|error| error.at(self.offset()))
    }

    /// Deserializes the value. Its offset is added to an error, also to that of a conversion.
    pub(crate) fn seeded<T: DeserializeSeed<'de>>(self, seed: T) -> Result<T::Value, Error> {
        let found = seed.deserialize(self);
        self.placed(found)
    }

    /// Returns the error of a value of another kind than is expected.
    #[cold]
    pub(crate) fn mismatch(self, expected: &dyn de::Expected) -> Error {
        let text;
        let found = match self.kind() {
            Kind::Null => Unexpected::Other("null"),
            Kind::False => Unexpected::Bool(false),
            Kind::True => Unexpected::Bool(true),
            Kind::Number => match Number::of(self.item().value()) {
                Ok(number) => number.unexpected(),
                Err(error) => return error,
            },
            Kind::String => {
                text = self.string().unwrap_or_default();
                Unexpected::Str(&text)
            }
            Kind::Array => Unexpected::Seq,
            Kind::Object => Unexpected::Map,
        };
        de::Error::invalid_type(found, expected)
    }
}

/// Defines the methods for numbers.
macro_rules! numbers {
    ($($method:ident => $visit:ident,)*) => {$(
        fn $method<V: Visitor<'de>>(self, visitor: V) -> Result<V::Value, Error> {
            self.placed(match self.kind() {
                Kind::Number => scalars::$visit(self.item().value(), visitor),
                _ => Err(self.mismatch(&visitor)),
            })
        }
    )*};
}

/// Defines methods that call another with the visitor.
macro_rules! same_as {
    ($other:ident: $($method:ident($($argument:ty),*),)*) => {$(
        fn $method<V: Visitor<'de>>(self, $(_: $argument,)* visitor: V) -> Result<V::Value, Error> {
            self.$other(visitor)
        }
    )*};
}

impl<'de> de::Deserializer<'de> for Deserializer<'de, '_> {
    type Error = Error;

    fn deserialize_any<V: Visitor<'de>>(self, visitor: V) -> Result<V::Value, Error> {
        self.placed(match self.kind() {
            Kind::Null => visitor.visit_unit(),
            Kind::False => visitor.visit_bool(false),
            Kind::True => visitor.visit_bool(true),
            Kind::Number => scalars::number(self.item().value(), visitor),
            Kind::String => self.visit_string(visitor),
            Kind::Array => Inside::elements(self, visitor),
            Kind::Object => Inside::members(self, visitor),
        })
    }

    fn deserialize_bool<V: Visitor<'de>>(self, visitor: V) -> Result<V::Value, Error> {
        self.placed(match self.kind() {
            Kind::False => visitor.visit_bool(false),
            Kind::True => visitor.visit_bool(true),
            _ => Err(self.mismatch(&visitor)),
        })
    }

    numbers! {
        deserialize_i8 => number,
        deserialize_i16 => number,
        deserialize_i32 => number,
        deserialize_i64 => number,
        deserialize_u8 => number,
        deserialize_u16 => number,
        deserialize_u32 => number,
        deserialize_u64 => number,
        deserialize_f64 => number,
        deserialize_f32 => single,
        deserialize_i128 => signed128,
        deserialize_u128 => unsigned128,
    }

    fn deserialize_str<V: Visitor<'de>>(self, visitor: V) -> Result<V::Value, Error> {
        self.placed(match self.kind() {
            Kind::String => self.visit_string(visitor),
            _ => Err(self.mismatch(&visitor)),
        })
    }

    fn deserialize_bytes<V: Visitor<'de>>(self, visitor: V) -> Result<V::Value, Error> {
        self.placed(match self.kind() {
            Kind::String => self.visit_bytes(visitor),
            Kind::Array => Inside::elements(self, visitor),
            _ => Err(self.mismatch(&visitor)),
        })
    }

    fn deserialize_option<V: Visitor<'de>>(self, visitor: V) -> Result<V::Value, Error> {
        self.placed(match self.kind() {
            Kind::Null => visitor.visit_none(),
            _ => visitor.visit_some(self),
        })
    }

    fn deserialize_unit<V: Visitor<'de>>(self, visitor: V) -> Result<V::Value, Error> {
        self.placed(match self.kind() {
            Kind::Null => visitor.visit_unit(),
            _ => Err(self.mismatch(&visitor)),
        })
    }

    fn deserialize_newtype_struct<V: Visitor<'de>>(
        self,
        _: &'static str,
        visitor: V,
    ) -> Result<V::Value, Error> {
        self.placed(visitor.visit_newtype_struct(self))
    }

    fn deserialize_seq<V: Visitor<'de>>(self, visitor: V) -> Result<V::Value, Error> {
        self.placed(match self.kind() {
            Kind::Array => Inside::elements(self, visitor),
            _ => Err(self.mismatch(&visitor)),
        })
    }

    fn deserialize_map<V: Visitor<'de>>(self, visitor: V) -> Result<V::Value, Error> {
        self.placed(match self.kind() {
            Kind::Object => Inside::members(self, visitor),
            _ => Err(self.mismatch(&visitor)),
        })
    }

    fn deserialize_struct<V: Visitor<'de>>(
        self,
        _: &'static str,
        _: &'static [&'static str],
        visitor: V,
    ) -> Result<V::Value, Error> {
        match self.kind() {
            Kind::Array => self.deserialize_seq(visitor),
            _ => self.deserialize_map(visitor),
        }
    }

    fn deserialize_enum<V: Visitor<'de>>(
        self,
        _: &'static str,
        _: &'static [&'static str],
        visitor: V,
    ) -> Result<V::Value, Error> {
        self.placed(match self.kind() {
            Kind::String => visitor.visit_enum(Variant { name: self, value: None }),
            Kind::Object => Variant::of_object(self).and_then(|it| visitor.visit_enum(it)),
            _ => Err(self.mismatch(&visitor)),
        })
    }

    fn deserialize_ignored_any<V: Visitor<'de>>(self, visitor: V) -> Result<V::Value, Error> {
        self.placed(visitor.visit_unit())
    }

    same_as! {
        deserialize_str: deserialize_char(), deserialize_string(), deserialize_identifier(),
    }
    same_as! { deserialize_bytes: deserialize_byte_buf(), }
    same_as! { deserialize_unit: deserialize_unit_struct(&'static str), }
    same_as! {
        deserialize_seq: deserialize_tuple(usize), deserialize_tuple_struct(&'static str, usize),
    }
}
