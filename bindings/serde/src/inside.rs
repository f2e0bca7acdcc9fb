//! The elements of arrays, and the members of objects.
use crate::name::Name;
use crate::{Deserializer, Error};
use serde::de::{self, DeserializeSeed, MapAccess, SeqAccess, Visitor};

/// The nodes in an array or an object, without those in them.
pub(crate) struct Inside<'de, 'a> {
    whole: Deserializer<'de, 'a>,
    /// The element or the name that was read last; before the first, the whole.
    last: Deserializer<'de, 'a>,
    /// The index of the next element or name.
    next: usize,
    /// The index after the last node.
    end: usize,
    /// Whether the visitor has seen the end.
    is_ended: bool,
}

impl<'de, 'a> Inside<'de, 'a> {
    fn of(whole: Deserializer<'de, 'a>) -> Inside<'de, 'a> {
        let end = whole.node().next;
        Inside { whole, last: whole, next: whole.index + 1, end, is_ended: false }
    }

    /// Gives a visitor the elements of an array.
    pub(crate) fn elements<V: Visitor<'de>>(
        array: Deserializer<'de, 'a>,
        visitor: V,
    ) -> Result<V::Value, Error> {
        let mut inside = Inside::of(array);
        let found = visitor.visit_seq(&mut inside);
        inside.ended(found, 1, &"fewer elements in array")
    }

    /// Gives a visitor the members of an object.
    pub(crate) fn members<V: Visitor<'de>>(
        object: Deserializer<'de, 'a>,
        visitor: V,
    ) -> Result<V::Value, Error> {
        let mut inside = Inside::of(object);
        let found = visitor.visit_map(&mut inside);
        inside.ended(found, 2, &"fewer elements in map")
    }

    /// Returns the result of a visitor, which must have read everything. Its error is at the last
    /// element or name that it read, or, if it has seen the end, at the whole.
    fn ended<T>(
        mut self,
        found: Result<T, Error>,
        nodes_each: usize,
        expected: &dyn de::Expected,
    ) -> Result<T, Error> {
        let value = found.map_err(|error| {
            let at = if self.is_ended { self.whole } else { self.last };
            error.at(at.offset())
        })?;
        if self.next == self.end {
            return Ok(value);
        }
        let first = Deserializer { index: self.next, ..self.whole };
        self.next = self.whole.index + 1;
        let mut count = 0;
        while self.advance().is_some() {
            count += 1;
        }
        let error: Error = de::Error::invalid_length(count / nodes_each, expected);
        Err(error.at(first.offset()))
    }

    /// Returns the next node.
    fn advance(&mut self) -> Option<Deserializer<'de, 'a>> {
        if self.next == self.end {
            self.is_ended = true;
            return None;
        }
        self.last = Deserializer { index: self.next, ..self.whole };
        self.next = self.last.node().next;
        Some(self.last)
    }
}

impl<'de> SeqAccess<'de> for Inside<'de, '_> {
    type Error = Error;

    fn next_element_seed<T: DeserializeSeed<'de>>(
        &mut self,
        seed: T,
    ) -> Result<Option<T::Value>, Error> {
        self.advance().map(|element| element.seeded(seed)).transpose()
    }
}

impl<'de> MapAccess<'de> for Inside<'de, '_> {
    type Error = Error;

    fn next_key_seed<K: DeserializeSeed<'de>>(
        &mut self,
        seed: K,
    ) -> Result<Option<K::Value>, Error> {
        let Some(name) = self.advance() else {
            return Ok(None);
        };
        // The value is skipped here, so that the next call returns a name even if the value is not
        // read.
        self.next = self.value().node().next;
        seed.deserialize(Name(name)).map(Some).map_err(|error| error.at(name.offset()))
    }

    fn next_value_seed<V: DeserializeSeed<'de>>(&mut self, seed: V) -> Result<V::Value, Error> {
        self.value().seeded(seed)
    }
}

impl<'de, 'a> Inside<'de, 'a> {
    /// Returns the value of the name that was read last.
    fn value(&self) -> Deserializer<'de, 'a> {
        Deserializer { index: self.last.node().next, ..self.whole }
    }
}
