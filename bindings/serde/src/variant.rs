//! The variants of enums.
use crate::{Deserializer, Error};
use serde::de::{self, DeserializeSeed, Deserializer as _, EnumAccess, Unexpected, VariantAccess};
use serde::de::{Deserialize, Visitor};

/// The variant of an enum: a string, or an object with one member.
pub(crate) struct Variant<'de, 'a> {
    pub(crate) name: Deserializer<'de, 'a>,
    /// The value of the member.
    pub(crate) value: Option<Deserializer<'de, 'a>>,
}

impl<'de, 'a> Variant<'de, 'a> {
    /// Returns the variant that an object with one member is.
    pub(crate) fn of_object(object: Deserializer<'de, 'a>) -> Result<Variant<'de, 'a>, Error> {
        let (mut index, end) = (object.index + 1, object.node().next);
        if index < end {
            let name = Deserializer { index, ..object };
            index = name.node().next;
            let value = Deserializer { index, ..object };
            if value.node().next == end {
                return Ok(Variant { name, value: Some(value) });
            }
        }
        Err(de::Error::invalid_value(Unexpected::Map, &"map with a single key"))
    }

    /// Returns the value, or the error of a variant without one.
    fn value(self, expected: &'static str) -> Result<Deserializer<'de, 'a>, Error> {
        self.value.ok_or_else(|| {
            let error: Error = de::Error::invalid_type(Unexpected::UnitVariant, &expected);
            error.at(self.name.offset())
        })
    }
}

impl<'de, 'a> EnumAccess<'de> for Variant<'de, 'a> {
    type Error = Error;
    type Variant = Variant<'de, 'a>;

    fn variant_seed<V: DeserializeSeed<'de>>(
        self,
        seed: V,
    ) -> Result<(V::Value, Variant<'de, 'a>), Error> {
        Ok((self.name.seeded(seed)?, self))
    }
}

impl<'de> VariantAccess<'de> for Variant<'de, '_> {
    type Error = Error;

    fn unit_variant(self) -> Result<(), Error> {
        self.value.map_or(Ok(()), Deserialize::deserialize)
    }

    fn newtype_variant_seed<T: DeserializeSeed<'de>>(self, seed: T) -> Result<T::Value, Error> {
        self.value("newtype variant")?.seeded(seed)
    }

    fn tuple_variant<V: Visitor<'de>>(self, _: usize, visitor: V) -> Result<V::Value, Error> {
        self.value("tuple variant")?.deserialize_seq(visitor)
    }

    fn struct_variant<V: Visitor<'de>>(
        self,
        fields: &'static [&'static str],
        visitor: V,
    ) -> Result<V::Value, Error> {
        self.value("struct variant")?.deserialize_struct("", fields, visitor)
    }
}
