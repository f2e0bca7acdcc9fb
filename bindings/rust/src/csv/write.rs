//! Writing records.
use super::Dialect;
#[cfg(feature = "alloc")]
use crate::bytes::append;
use crate::{exports, Bytes, Error, RequiredSize};
#[cfg(feature = "alloc")]
use alloc::vec::Vec;

/// Writes a record of comma-separated values (RFC 4180) in a dialect to the start of `buffer`, and
/// returns its length. Does not allocate.
///
/// A field is written in quotes only if it needs them: if it contains a quote, a delimiter, a
/// carriage return or a line feed, or is empty and the only field. [`record`](super::record) reads
/// the same fields from the record. If the dialect has [`LineEnd::Either`](super::LineEnd::Either),
/// the line ending is a carriage return and a line feed.
///
/// # Errors
///
/// After an error the buffer is unchanged.
///
/// - [`Error::BufferTooSmall`] holds the length of the record.
/// - [`Error::Invalid`] if there are no fields.
/// - [`Error::InvalidDialect`] if there is no such dialect.
///
/// ```
/// use pergidau::csv::{self, Dialect};
/// use pergidau::Error;
///
/// let mut buffer = [0; 32];
/// let fields = ["a".into(), "b, \"c\"".into()];
/// let length = csv::write_record(&fields, Dialect::standard(), &mut buffer)?;
/// assert_eq!(&buffer[..length], b"a,\"b, \"\"c\"\"\"\r\n");
/// let small = csv::write_record(&fields, Dialect::standard(), &mut []).unwrap_err();
/// assert_eq!(small.to_string(), "buffer too small: 14 bytes required");
/// # Ok::<(), Error>(())
/// ```
pub fn write_record(
    fields: &[Bytes<'_>],
    dialect: impl Into<Dialect>,
    buffer: &mut [u8],
) -> Result<usize, Error> {
    let (given, mut out) = (dialect.into().given(), 0);
    let (entries, count) = Bytes::given(fields);
    // SAFETY: the pointers are those of live borrows, and the entries and their bytes are only read. The
    // call takes up to 4 KiB of stack (measured); where there is less, the thread's guard page ends the
    // program.
    let code = unsafe {
        let (room, most) = (buffer.as_mut_ptr(), buffer.len());
        exports::exported_csv_write(entries, count, &given, room, most, &mut out)
    };
    match code {
        exports::DONE => Ok(out),
        code => Err(Error::of(code, None, RequiredSize { entries: 0, bytes: out })),
    }
}

/// Appends a record to a vector, as [`write_record`] writes it. After an error the vector is
/// unchanged.
///
/// ```
/// use pergidau::csv::{self, LineEnd};
///
/// let mut out = Vec::new();
/// for fields in [["name", "price"], ["milk, fresh", "2"]] {
///     csv::append_record(&fields, LineEnd::Lf, &mut out)?;
/// }
/// assert_eq!(out, b"name,price\n\"milk, fresh\",2\n");
/// # Ok::<(), pergidau::Error>(())
/// ```
#[cfg(feature = "alloc")]
pub fn append_record<F: AsRef<[u8]>>(
    fields: &[F],
    dialect: impl Into<Dialect>,
    out: &mut Vec<u8>,
) -> Result<(), Error> {
    let dialect = dialect.into();
    let slices: Vec<_> = fields.iter().map(Bytes::from).collect();
    // Two quotes for each field, a delimiter, and the line ending.
    let expected = slices.iter().map(|it| it.get().len() + 3).sum::<usize>() + 2;
    append(out, expected, |buffer| write_record(&slices, dialect, buffer))
}
