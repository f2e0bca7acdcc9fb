//! Records of comma-separated values (RFC 4180) in any [`Dialect`], from complete or partial input.
//!
//! ```
//! use pergidau::csv::{self, Dialect, LineEnd};
//!
//! let records: Result<Vec<_>, _> = csv::records(b"a,\"b, c\"\r\n1,2\r\n", LineEnd::CrLf).collect();
//! assert_eq!(records?, [[b"a".to_vec(), b"b, c".to_vec()], [b"1".to_vec(), b"2".to_vec()]]);
//! let spreadsheet = Dialect::standard().delimiter(b';').line_end(LineEnd::Either);
//! let records: Result<Vec<_>, _> = csv::records(b"a;b,c\n1;2\r\n", spreadsheet).collect();
//! assert_eq!(records?, [[b"a".to_vec(), b"b,c".to_vec()], [b"1".to_vec(), b"2".to_vec()]]);
//! # Ok::<(), pergidau::Error>(())
//! ```
mod extent;
mod write;

pub use self::extent::{Extent, Size};
#[cfg(feature = "alloc")]
pub use self::write::append_record;
pub use self::write::write_record;

use crate::{at, exports, Error, RequiredSize, Span};
#[cfg(feature = "alloc")]
use alloc::vec::Vec;

/// A line ending.
#[derive(Clone, Copy, Debug, Default, PartialEq, Eq)]
pub enum LineEnd {
    /// A carriage return and a line feed, as in RFC 4180.
    #[default]
    CrLf,
    /// Only a line feed.
    Lf,
    /// Either of them, for each record anew.
    Either,
}

/// A dialect: the byte between two fields, the byte around a quoted field, and what ends a record.
///
/// The delimiter, the quote, a carriage return and a line feed must be four different bytes;
/// otherwise each function returns [`Error::InvalidDialect`]. There is always a quote: for fields
/// without quotes, choose a byte that does not occur. There are no escape characters and no comments.
/// The functions also take a [`LineEnd`], for the standard dialect with that line ending.
///
/// ```
/// use pergidau::csv::{self, Dialect, LineEnd};
/// use pergidau::{Error, Span};
///
/// let tabs = Dialect::standard().delimiter(b'\t').line_end(LineEnd::Lf);
/// let (mut text, mut fields) = ([0; 64], [Span::default(); 8]);
/// let record = csv::record(b"a,b\tc\n", tabs, &mut text, &mut fields)?;
/// assert_eq!(record.fields().collect::<Vec<_>>(), [&b"a,b"[..], b"c"]);
/// let none = csv::record(b"a", tabs.quote(b'\t'), &mut text, &mut fields);
/// assert_eq!(none.unwrap_err(), Error::InvalidDialect);
/// # Ok::<(), pergidau::Error>(())
/// ```
#[derive(Clone, Copy, Debug, PartialEq, Eq)]
pub struct Dialect {
    delimiter: u8,
    quote: u8,
    end: LineEnd,
}

impl Dialect {
    /// Returns the dialect of RFC 4180: commas, double quotes, and carriage returns with line feeds.
    pub const fn standard() -> Dialect {
        Dialect { delimiter: b',', quote: b'"', end: LineEnd::CrLf }
    }

    /// Returns this dialect with another delimiter.
    pub const fn delimiter(self, delimiter: u8) -> Dialect {
        Dialect { delimiter, ..self }
    }

    /// Returns this dialect with another quote.
    pub const fn quote(self, quote: u8) -> Dialect {
        Dialect { quote, ..self }
    }

    /// Returns this dialect with another line ending.
    pub const fn line_end(self, end: LineEnd) -> Dialect {
        Dialect { end, ..self }
    }

    /// Returns the dialect as the exports take it.
    fn given(self) -> exports::CsvDialect {
        let line_ends = match self.end {
            LineEnd::CrLf => exports::CSV_CRLF,
            LineEnd::Lf => exports::CSV_LF,
            LineEnd::Either => exports::CSV_EITHER,
        };
        exports::CsvDialect { delimiter: self.delimiter, quote: self.quote, line_ends }
    }
}

impl Default for Dialect {
    fn default() -> Dialect {
        Dialect::standard()
    }
}

impl From<LineEnd> for Dialect {
    fn from(end: LineEnd) -> Dialect {
        Dialect::standard().line_end(end)
    }
}

/// A record: its fields, as slices of the buffer that they were written into.
#[derive(Clone, Copy, Debug)]
pub struct Record<'i, 'b> {
    text: &'b [u8],
    places: &'b [Span],
    rest: &'i [u8],
}

impl<'i, 'b> Record<'i, 'b> {
    /// The fields, in order, without the quotes round them and with each quote in them once.
    pub fn fields(&self) -> impl ExactSizeIterator<Item = &'b [u8]> + 'b {
        let text = self.text;
        self.places.iter().map(move |place| at(text, *place))
    }

    /// The field of this number, from 0 on.
    pub fn get(&self, number: usize) -> Option<&'b [u8]> {
        self.places.get(number).map(|place| at(self.text, *place))
    }

    /// The number of the first field with these bytes: in a header, the column of this name.
    ///
    /// ```
    /// use pergidau::csv::{self, LineEnd};
    ///
    /// let mut records = csv::records(b"name,port\nlocal,80\n", LineEnd::Lf);
    /// let port = records.next_record().unwrap()?.position(b"port").expect("no such column");
    /// let record = records.next_record().unwrap()?;
    /// assert_eq!(record.get(port), Some(&b"80"[..]));
    /// # Ok::<(), pergidau::Error>(())
    /// ```
    pub fn position(&self, name: &[u8]) -> Option<usize> {
        self.fields().position(|field| field == name)
    }

    /// Returns the input after the record and its line ending.
    pub fn rest(&self) -> &'i [u8] {
        self.rest
    }
}

type Export = unsafe extern "C" fn(
    *const u8,
    usize,
    *const exports::CsvDialect,
    *mut u8,
    usize,
    *mut Span,
    usize,
    *mut exports::CsvRecordSizes,
) -> u32;

/// Returns the sizes of the record that was written.
fn write(
    export: Export,
    bytes: &[u8],
    dialect: Dialect,
    text: &mut [u8],
    fields: &mut [Span],
) -> Result<exports::CsvRecordSizes, Error> {
    let mut out = exports::CsvRecordSizes::default();
    let given = dialect.given();
    let (room, most) = (text.as_mut_ptr(), text.len());
    let (entries, count) = (fields.as_mut_ptr(), fields.len());
    // SAFETY: the pointers are those of live borrows, and the bytes are only read. The call takes up to
    // 4 KiB of stack (measured); where there is less, the thread's guard page ends the program.
    let code = unsafe {
        export(bytes.as_ptr(), bytes.len(), &given, room, most, entries, count, &mut out)
    };
    match code {
        exports::DONE => Ok(out),
        code => {
            let required = RequiredSize { entries: out.fields, bytes: out.text };
            Err(Error::of(code, Some(out.error_offset), required))
        }
    }
}

/// The record of these sizes at the start of `bytes`, in the buffers that it was written into.
fn shown<'i, 'b>(
    bytes: &'i [u8],
    out: &exports::CsvRecordSizes,
    text: &'b [u8],
    fields: &'b [Span],
) -> Record<'i, 'b> {
    let (text, places) = (&text[..out.text], &fields[..out.fields]);
    Record { text, places, rest: &bytes[out.length..] }
}

fn read<'i, 'b>(
    export: Export,
    bytes: &'i [u8],
    dialect: Dialect,
    text: &'b mut [u8],
    fields: &'b mut [Span],
) -> Result<Record<'i, 'b>, Error> {
    let out = write(export, bytes, dialect, text, fields)?;
    Ok(shown(bytes, &out, text, fields))
}

/// Parses one record of comma-separated values (RFC 4180) in a dialect, followed by a line ending or the end of
/// the input. Does not allocate.
///
/// The contents of the fields are written into `text`, and their positions into `fields`. Empty
/// input does not start with a record.
///
/// # Errors
///
/// - [`Error::BufferTooSmall`] if a buffer is too small; it holds the required sizes.
/// - [`Error::Invalid`] if `bytes` does not start with a record; it holds the offset of the first
///   invalid byte.
/// - [`Error::InvalidDialect`] if there is no such dialect.
///
/// ```
/// use pergidau::csv::{self, LineEnd};
/// use pergidau::Span;
///
/// let (mut text, mut fields) = ([0; 64], [Span::default(); 8]);
/// let record = csv::record(b"a,\"b \"\"c\"\"\"\nd", LineEnd::Lf, &mut text, &mut fields)?;
/// assert_eq!(record.fields().collect::<Vec<_>>(), [&b"a"[..], b"b \"c\""]);
/// assert_eq!(record.rest(), b"d");
/// let error = csv::record(b"a,b\"c", LineEnd::Lf, &mut text, &mut fields).unwrap_err();
/// assert_eq!(error.to_string(), "invalid input at offset 3");
/// # Ok::<(), pergidau::Error>(())
/// ```
pub fn record<'i, 'b>(
    bytes: &'i [u8],
    dialect: impl Into<Dialect>,
    text: &'b mut [u8],
    fields: &'b mut [Span],
) -> Result<Record<'i, 'b>, Error> {
    read(exports::exported_csv_record, bytes, dialect.into(), text, fields)
}

/// Like [`record`], for partial input.
///
/// A quoted field without a closing quote never ends, so the caller must limit how many bytes are
/// buffered. The last record may have no line ending: at the end of the input, parse it with
/// [`record`]. Each call parses from the first byte; for a long record in many chunks, find its end
/// with an [`Extent`].
///
/// # Errors
///
/// - [`Error::Incomplete`] if `bytes` contains no record with its line ending, and at most three
///   more bytes can complete one.
/// - [`Error::Invalid`] if `bytes` does not start with a record, regardless of what follows.
///
/// ```
/// use pergidau::csv::{self, LineEnd};
/// use pergidau::Error;
///
/// let record = csv::record_partial(b"a,b", LineEnd::CrLf, &mut [], &mut []);
/// assert_eq!(record.unwrap_err(), Error::Incomplete);
/// let never = csv::record_partial(b"x\"y", LineEnd::CrLf, &mut [], &mut []);
/// assert_eq!(never.unwrap_err().to_string(), "invalid input at offset 1");
/// ```
pub fn record_partial<'i, 'b>(
    bytes: &'i [u8],
    dialect: impl Into<Dialect>,
    text: &'b mut [u8],
    fields: &'b mut [Span],
) -> Result<Record<'i, 'b>, Error> {
    read(exports::exported_csv_record_partial, bytes, dialect.into(), text, fields)
}

/// The records of a document, in buffers that grow as needed. [`next_record`](Records::next_record)
/// lends a record, and allocates only if a buffer is too small. As an iterator, it returns records
/// that own their fields. After an error there are no more records.
#[cfg(feature = "alloc")]
#[derive(Clone, Debug)]
pub struct Records<'i> {
    document: &'i [u8],
    left: &'i [u8],
    dialect: Dialect,
    text: Vec<u8>,
    fields: Vec<Span>,
}

#[cfg(feature = "alloc")]
impl<'i> Records<'i> {
    /// Returns the next record, in the buffers of `self`.
    ///
    /// ```
    /// use pergidau::csv::{self, LineEnd};
    ///
    /// let (mut records, mut sum) = (csv::records(b"a,b\nc\n", LineEnd::Lf), 0);
    /// while let Some(record) = records.next_record() {
    ///     sum += record?.fields().len();
    /// }
    /// assert_eq!(sum, 3);
    /// # Ok::<(), pergidau::Error>(())
    /// ```
    pub fn next_record(&mut self) -> Option<Result<Record<'i, '_>, Error>> {
        let left = self.left;
        let found = loop {
            if left.is_empty() {
                return None;
            }
            let (text, fields) = (&mut self.text, &mut self.fields);
            match write(exports::exported_csv_record, left, self.dialect, text, fields) {
                Err(Error::BufferTooSmall(required)) => {
                    text.resize(required.bytes.max(text.len()), 0);
                    fields.resize(required.entries.max(fields.len()), Span::default());
                }
                found => break found,
            }
        };
        match found {
            Ok(out) => {
                self.left = &left[out.length..];
                Some(Ok(shown(left, &out, &self.text, &self.fields)))
            }
            Err(error) => {
                let before = self.document.len() - left.len();
                self.left = &[];
                Some(Err(match error {
                    Error::Invalid(Some(offset)) => Error::Invalid(Some(before + offset)),
                    error => error,
                }))
            }
        }
    }
}

#[cfg(feature = "alloc")]
impl Iterator for Records<'_> {
    type Item = Result<Vec<Vec<u8>>, Error>;

    fn next(&mut self) -> Option<Self::Item> {
        let record = self.next_record()?;
        Some(record.map(|record| record.fields().map(<[u8]>::to_vec).collect()))
    }
}

#[cfg(feature = "alloc")]
impl core::iter::FusedIterator for Records<'_> {}

/// Returns the records of a document. If a record is invalid, the error holds the offset of the
/// first invalid byte in the document.
///
/// ```
/// use pergidau::csv::{self, LineEnd};
///
/// let records: Result<Vec<_>, _> = csv::records(b"a,b\n\"c\nd\",\n", LineEnd::Lf).collect();
/// assert_eq!(records?, [[b"a".to_vec(), b"b".to_vec()], [b"c\nd".to_vec(), Vec::new()]]);
/// let error = csv::records(b"a\nb\"\n", LineEnd::Lf).last();
/// assert_eq!(error.unwrap().unwrap_err().to_string(), "invalid input at offset 3");
/// # Ok::<(), pergidau::Error>(())
/// ```
#[cfg(feature = "alloc")]
pub fn records(document: &[u8], dialect: impl Into<Dialect>) -> Records<'_> {
    let dialect = dialect.into();
    Records { document, left: document, dialect, text: Vec::new(), fields: Vec::new() }
}
