//! Deserializes JSON into types of [serde]. [`pergidau::json`] parses it, which is proved; this
//! crate converts the parsed values, like `serde_json`.
//!
//! ```
//! #[derive(serde::Deserialize, Debug, PartialEq)]
//! struct Package<'i> {
//!     name: &'i str,
//!     #[serde(default)]
//!     tags: Vec<String>,
//!     license: Option<String>,
//! }
//!
//! let text = "{\"name\": \"pergidau\", \"tags\": [\"proved\", \"JSON\"], \"license\": \"MIT\"}";
//! let package: Package = pergidau_serde::from_str(text)?;
//! assert_eq!((package.name, package.tags.len()), ("pergidau", 2));
//! let error = pergidau_serde::from_str::<Package>("{\"name\": 1}").unwrap_err();
//! assert_eq!(
//!     error.to_string(),
//!     "line 1, column 10: invalid type: integer `1`, expected a borrowed string"
//! );
//! # Ok::<(), pergidau_serde::Error>(())
//! ```
//!
//! # Conversions
//!
//! They are those of `serde_json`, also for types with attributes of serde's derive macros:
//!
//! - `null` is `None` and `()`. Enums are strings, or objects with one member.
//! - Integers convert to integer types that they fit, and to floats. Numbers with a point or an
//!   exponent, and `-0`, convert only to floats (`-0` also to `i128`), and to the nearest one: the
//!   standard library converts the text. If that is infinite, it is an error.
//! - A string without escapes is borrowed from the text, for `&str` and `Cow<str>` with
//!   `#[serde(borrow)]`. Others are copied.
//! - Names of members can be keys of maps that are strings, characters, numbers, booleans or enums.
//! - Of repeated members, a map has the last, and a derived struct is an error.
//!
//! # Differences from `serde_json`
//!
//! - The whole text is checked first, also the values that are ignored: they may not be nested
//!   deeper than the limit, and their escapes must be characters. So an error of the text is
//!   reported before one of the type.
//! - Strings are always Unicode, also those that are deserialized as bytes.
//! - `RawValue`, and numbers of arbitrary precision, which are private to `serde_json`, are not
//!   supported.
//! - Errors have the offset of the value, `serde_json`'s that of the end of what it had read.
//!
//! # Costs
//!
//! All values are parsed in one pass into a list of nodes, of at most 16 bytes for each byte of the
//! text, and each is converted from there. The time is linear in the text.
#![cfg_attr(not(feature = "std"), no_std)]
#![forbid(unsafe_code)]
#![warn(missing_docs)]

extern crate alloc;

mod error;
mod inside;
mod name;
mod scalars;
mod value;
mod variant;

pub use crate::error::Error;
pub use crate::value::Deserializer;

use pergidau::json::OwnedNodes;
use serde::Deserialize;

/// The examples of the page of this crate are run as those of its documentation.
#[cfg(doctest)]
#[doc = include_str!("../README.md")]
pub struct Page;

/// The depth limit of [`from_str`] and [`from_slice`], which is that of `serde_json`: arrays and
/// objects may be nested this deep.
pub const DEFAULT_DEPTH: usize = 127;

/// Deserializes a JSON text (RFC 8259), whose arrays and objects are nested at most
/// [`DEFAULT_DEPTH`] deep. [`Document`] has other limits.
///
/// # Errors
///
/// - The text is not JSON, or something follows the value: [`Error::diagnostic`] tells what was
///   expected.
/// - A value does not fit the type: [`Error::message`] is that of serde.
///
/// ```
/// use std::collections::BTreeMap;
///
/// let ports: BTreeMap<&str, u16> = pergidau_serde::from_str("{\"http\": 80, \"https\": 443}")?;
/// assert_eq!(ports["https"], 443);
/// let error = pergidau_serde::from_str::<[i8; 2]>("[1, 2] 3").unwrap_err();
/// assert_eq!(error.to_string(), "line 1, column 8: expected the end of the text");
/// # Ok::<(), pergidau_serde::Error>(())
/// ```
pub fn from_str<'de, T: Deserialize<'de>>(text: &'de str) -> Result<T, Error> {
    Document::parse(text, DEFAULT_DEPTH)?.deserialize()
}

/// Deserializes a JSON text like [`from_str`]. The bytes must be UTF-8.
///
/// # Errors
///
/// - The errors of [`from_str`].
/// - The bytes are not UTF-8: the diagnostic has
///   [`Error::InvalidUtf8`](pergidau::Error::InvalidUtf8), unless the text has an earlier error.
///
/// ```
/// assert_eq!(pergidau_serde::from_slice::<&str>(b"\"text\"")?, "text");
/// let error = pergidau_serde::from_slice::<&str>(b"\"\xFF\"").unwrap_err();
/// assert_eq!(error.offset(), Some(1));
/// # Ok::<(), pergidau_serde::Error>(())
/// ```
pub fn from_slice<'de, T: Deserialize<'de>>(bytes: &'de [u8]) -> Result<T, Error> {
    match core::str::from_utf8(bytes) {
        Ok(text) => from_str(text),
        Err(_) => Err(Error::of_json(bytes, DEFAULT_DEPTH, pergidau::Error::InvalidUtf8)),
    }
}

/// A JSON text that was parsed, from which values can be deserialized.
///
/// ```
/// use pergidau_serde::Document;
///
/// #[derive(serde::Deserialize)]
/// struct Head {
///     version: u32,
/// }
///
/// // The type of the rest depends on the version.
/// let document = Document::parse("{\"version\": 2, \"list\": [[1]]}", 512)?;
/// assert_eq!(document.deserialize::<Head>()?.version, 2);
/// # Ok::<(), pergidau_serde::Error>(())
/// ```
#[derive(Clone, Debug)]
pub struct Document<'de> {
    pub(crate) text: &'de str,
    pub(crate) nodes: OwnedNodes<'de>,
}

impl<'de> Document<'de> {
    /// Parses a JSON text (RFC 8259) whose arrays and objects are nested at most `max_depth` deep.
    /// The limit may be at most [`pergidau::MAX_DEPTH`], which is 512.
    ///
    /// The stack that [`deserialize`](Document::deserialize) needs for a level depends on the type;
    /// it may be some kilobytes without optimization.
    ///
    /// # Errors
    ///
    /// - The text is not JSON, or nested too deep.
    /// - `max_depth` is too large.
    pub fn parse(text: &'de str, max_depth: usize) -> Result<Document<'de>, Error> {
        match OwnedNodes::parse(text, max_depth) {
            Ok(nodes) => Ok(Document { text, nodes }),
            Err(error) => Err(Error::of_json(text.as_bytes(), max_depth, error)),
        }
    }

    /// Deserializes the whole text.
    ///
    /// # Errors
    ///
    /// A value does not fit the type.
    pub fn deserialize<T: Deserialize<'de>>(&self) -> Result<T, Error> {
        let root = self.deserializer();
        root.placed(T::deserialize(root)).map_err(|error| error.in_text(self.text))
    }

    /// Returns the value of the whole text.
    pub fn deserializer(&self) -> Deserializer<'de, '_> {
        Deserializer { document: self, index: 0 }
    }
}
