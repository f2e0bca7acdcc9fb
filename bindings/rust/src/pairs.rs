//! Lines of a key and a value, and documents of them in sections, by one fixed grammar.
//!
//! For INI files, see [`ini`](crate::ini).
//!
//! ```
//! use pergidau::pairs::{self, Entry};
//!
//! assert_eq!(pairs::line(b"key=value\n"), Ok((&b"key"[..], &b"value"[..])));
//! let (mut text, mut entries) = ([0; 64], [Entry::default(); 8]);
//! let document = pairs::document(b"[server]\nport = 80 ; as usual\n", &mut text, &mut entries)?;
//! for section in document.sections() {
//!     assert_eq!(section.name(), b"server");
//!     assert_eq!(section.pairs().next(), Some((&b"port"[..], &b"80"[..])));
//! }
//! # Ok::<(), pergidau::Error>(())
//! ```
pub use crate::exports::PairEntry as Entry;

use crate::{at, exports, Error, RequiredSize, NOTHING};
#[cfg(feature = "alloc")]
use alloc::{vec, vec::Vec};

/// Parses a line of the form `key=value`. The key consists of ASCII letters or digits, the value of
/// any bytes except line feeds. The line may end with one line feed.
///
/// ```
/// use pergidau::pairs;
///
/// assert_eq!(pairs::line(b"a="), Ok((&b"a"[..], &b""[..])));
/// assert!(pairs::line(b"a=b\nc").is_err());
/// ```
pub fn line(bytes: &[u8]) -> Result<(&[u8], &[u8]), Error> {
    let mut out = exports::Pair::default();
    // SAFETY: the pointers are those of live borrows, and the bytes are only read. The call takes up to
    // 4 KiB of stack (measured); where there is less, the thread's guard page ends the program.
    let code = unsafe { exports::exported_pair_line(bytes.as_ptr(), bytes.len(), &mut out) };
    match code {
        exports::DONE => Ok((at(bytes, out.key), at(bytes, out.value))),
        code => Err(Error::of(code, Some(out.error_offset), NOTHING)),
    }
}

/// A document: its sections, as slices of the buffer that their texts were written into.
#[derive(Clone, Copy, Debug)]
pub struct Document<'b> {
    text: &'b [u8],
    entries: &'b [Entry],
}

impl<'b> Document<'b> {
    /// The sections, in order.
    pub fn sections(&self) -> Sections<'b> {
        Sections { text: self.text, left: self.entries }
    }

    /// The first value of a key in the sections of this name.
    ///
    /// ```
    /// use pergidau::pairs::{self, Entry};
    ///
    /// let (mut text, mut entries) = ([0; 64], [Entry::default(); 8]);
    /// let bytes = b"[a]\nx = 1\n[b]\nx = 2\nx = 3\n";
    /// let document = pairs::document(bytes, &mut text, &mut entries)?;
    /// assert_eq!(document.get(b"b", b"x"), Some(&b"2"[..]));
    /// assert_eq!(document.get(b"b", b"y"), None);
    /// # Ok::<(), pergidau::Error>(())
    /// ```
    pub fn get(&self, section: &[u8], key: &[u8]) -> Option<&'b [u8]> {
        self.sections().filter(|it| it.name == section).find_map(|it| it.get(key))
    }
}

/// The sections of a document.
#[derive(Clone, Copy, Debug)]
pub struct Sections<'b> {
    text: &'b [u8],
    left: &'b [Entry],
}

impl<'b> Iterator for Sections<'b> {
    type Item = Section<'b>;

    fn next(&mut self) -> Option<Section<'b>> {
        let (head, behind) = self.left.split_first()?;
        let count = behind.iter().position(|it| it.key.length == 0).unwrap_or(behind.len());
        let (pairs, left) = behind.split_at(count);
        self.left = left;
        Some(Section { text: self.text, name: at(self.text, head.value), pairs })
    }
}

/// A section: its name and its pairs. All are UTF-8.
#[derive(Clone, Copy, Debug)]
pub struct Section<'b> {
    text: &'b [u8],
    name: &'b [u8],
    pairs: &'b [Entry],
}

impl<'b> Section<'b> {
    /// The name between the brackets.
    pub fn name(&self) -> &'b [u8] {
        self.name
    }

    /// The keys and the values of its pairs, in order, repeats kept.
    pub fn pairs(&self) -> impl ExactSizeIterator<Item = (&'b [u8], &'b [u8])> + 'b {
        let text = self.text;
        self.pairs.iter().map(move |it| (at(text, it.key), at(text, it.value)))
    }

    /// The first value of a key.
    pub fn get(&self, key: &[u8]) -> Option<&'b [u8]> {
        self.pairs().find(|pair| pair.0 == key).map(|pair| pair.1)
    }
}

/// A document in buffers of its own.
#[cfg(feature = "alloc")]
#[derive(Clone, Debug)]
pub struct OwnedDocument {
    text: Vec<u8>,
    entries: Vec<Entry>,
}

#[cfg(feature = "alloc")]
impl OwnedDocument {
    /// Parses a document, as [`document`](self::document).
    ///
    /// ```
    /// let document = pergidau::pairs::OwnedDocument::parse(b"[a]\nx = 1\n")?;
    /// let section = document.sections().next().unwrap();
    /// assert_eq!(section.pairs().next(), Some((&b"x"[..], &b"1"[..])));
    /// # Ok::<(), pergidau::Error>(())
    /// ```
    pub fn parse(bytes: &[u8]) -> Result<OwnedDocument, Error> {
        let (mut text, mut entries) = (vec![0; bytes.len()], vec![Entry::default(); 32]);
        let out = loop {
            match write(bytes, &mut text, &mut entries) {
                Err(Error::BufferTooSmall(required)) => {
                    text.resize(required.bytes.max(text.len()), 0);
                    entries.resize(required.entries.max(entries.len()), Entry::default());
                }
                found => break found?,
            }
        };
        text.truncate(out.text);
        entries.truncate(out.entries);
        Ok(OwnedDocument { text, entries })
    }

    /// The document, as slices of its buffers.
    pub fn document(&self) -> Document<'_> {
        Document { text: &self.text, entries: &self.entries }
    }

    /// The sections, in order.
    pub fn sections(&self) -> Sections<'_> {
        self.document().sections()
    }
}

/// Parses a document of sections: names in brackets, each followed by pairs, with whitespace and
/// comments between them.
///
/// The bytes of the names, keys and values are written into `text`, and their offsets into
/// `entries`.
///
/// # Errors
///
/// - [`Error::BufferTooSmall`] if a buffer is too small; it holds the required sizes.
/// - [`Error::Invalid`] holds the offset of the first part that is not a section, pair,
///   whitespace or comment. A pair extends to the end of its line, so a pair with bytes that are
///   not UTF-8 is rejected at its key.
///
/// # Memory
///
/// A call holds up to 100 bytes of memory for each byte of the document (measured).
///
/// ```
/// use pergidau::pairs::{self, Entry};
///
/// let (mut text, mut entries) = ([0; 64], [Entry::default(); 8]);
/// let document = pairs::document(b"[a]\nx = 1 ; one\ny=2\n", &mut text, &mut entries)?;
/// let section = document.sections().next().unwrap();
/// assert_eq!(section.name(), b"a");
/// assert_eq!(section.pairs().collect::<Vec<_>>(), [(&b"x"[..], &b"1"[..]), (b"y", b"2")]);
/// let error = pairs::document(b"[a]\nx\n", &mut text, &mut entries).unwrap_err();
/// assert_eq!(error.to_string(), "invalid input at offset 4");
/// # Ok::<(), pergidau::Error>(())
/// ```
pub fn document<'b>(
    bytes: &[u8],
    text: &'b mut [u8],
    entries: &'b mut [Entry],
) -> Result<Document<'b>, Error> {
    let out = write(bytes, text, entries)?;
    Ok(Document { text: &text[..out.text], entries: &entries[..out.entries] })
}

/// Returns the sizes of the document that was written.
fn write(
    bytes: &[u8],
    text: &mut [u8],
    entries: &mut [Entry],
) -> Result<exports::PairSizes, Error> {
    let mut out = exports::PairSizes::default();
    let (room, most) = (text.as_mut_ptr(), text.len());
    let (places, count) = (entries.as_mut_ptr(), entries.len());
    // SAFETY: the pointers are those of live borrows, and the bytes are only read. The call takes up to
    // 4 KiB of stack (measured); where there is less, the thread's guard page ends the program.
    let code = unsafe {
        exports::exported_pair_document(
            bytes.as_ptr(), bytes.len(), room, most, places, count, &mut out,
        )
    };
    match code {
        exports::DONE => Ok(out),
        code => {
            let required = RequiredSize { entries: out.entries, bytes: out.text };
            Err(Error::of(code, Some(out.error_offset), required))
        }
    }
}
