//! An input text, and the result of a reader.
use std::path::Path;

/// The number of zero bytes after a text: simdjson may read up to so far, and others look for the
/// first zero.
const PADDING: usize = 64;

/// A text, followed by padding.
pub struct Text {
    padded: Vec<u8>,
}

impl Text {
    /// The text of a file.
    pub fn read(file: &Path) -> Text {
        let bytes = std::fs::read(file).unwrap_or_else(|error| panic!("{}: {error}", file.display()));
        Text::of(&bytes)
    }

    pub fn of(bytes: &[u8]) -> Text {
        Text { padded: [bytes, &[0; PADDING]].concat() }
    }

    pub fn bytes(&self) -> &[u8] {
        &self.padded[..self.padded.len() - PADDING]
    }

    /// Returns the text with its padding.
    pub fn padded(&self) -> &[u8] {
        &self.padded
    }
}

/// The result of a reader: the number of parts, and a sum over them. It is the same for all readers
/// of a text.
#[derive(Clone, Copy, Debug, Default, PartialEq, Eq)]
#[repr(C)]
pub struct Outcome {
    pub count: u64,
    pub sum: u64,
}

impl Outcome {
    /// Counts one more part, and adds `sum`.
    pub fn add(&mut self, sum: usize) {
        self.count += 1;
        self.sum = self.sum.wrapping_add(sum as u64);
    }

    /// Counts a decoded string, and adds its length and its last byte.
    pub fn add_text(&mut self, text: &str) {
        let last = text.as_bytes().last().copied().unwrap_or(0);
        self.add(text.len() << 8 | usize::from(last));
    }

    /// Counts a double, and adds the bits of the nearest `f32`, since some readers do not return the
    /// nearest double.
    pub fn add_double(&mut self, number: f64) {
        self.add((number as f32).to_bits() as usize);
    }
}
