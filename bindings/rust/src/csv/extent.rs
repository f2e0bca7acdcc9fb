//! Where records end.
use super::Dialect;
use crate::{exports, Error, RequiredSize, NOTHING};

/// How much the record has that an [`Extent`] found.
#[derive(Clone, Copy, Debug, PartialEq, Eq)]
pub struct Size {
    /// The length of the record in bytes, including its line ending.
    pub length: usize,
    /// The buffer sizes that [`record`](crate::csv::record) needs for the fields: entries and
    /// bytes.
    pub required: RequiredSize,
}

/// The state of a search for the end of a record in input that arrives in chunks.
///
/// No call looks again at bytes that an earlier call scanned. So all calls for a record take time
/// linear in its length, for any number of chunks, whereas
/// [`record_partial`](crate::csv::record_partial) parses from the first byte each time.
///
/// ```
/// use pergidau::csv::{self, Extent, LineEnd};
/// use pergidau::Span;
///
/// let (mut bytes, mut extent, mut seen) = (Vec::new(), Extent::new(LineEnd::CrLf), Vec::new());
/// for piece in [&b"a,\"b"[..], b"\r\nc\"\r", b"\n1,2\r\n"] {
///     bytes.extend(piece);
///     while let Some(size) = extent.advance(&bytes)? {
///         let (mut text, mut places) = ([0; 8], [Span::default(); 4]);
///         let record = csv::record(&bytes[..size.length], LineEnd::CrLf, &mut text, &mut places)?;
///         seen.push(record.get(1).map(<[u8]>::to_vec));
///         bytes.drain(..size.length);
///         extent = Extent::new(LineEnd::CrLf);
///     }
/// }
/// assert_eq!(seen, [Some(b"b\r\nc".to_vec()), Some(b"2".to_vec())]);
/// # Ok::<(), pergidau::Error>(())
/// ```
#[derive(Clone, Debug, Default, PartialEq, Eq)]
pub struct Extent {
    state: exports::CsvRecordState,
    dialect: Dialect,
}

impl Extent {
    /// Returns the initial state for a record of this dialect.
    pub fn new(dialect: impl Into<Dialect>) -> Extent {
        Extent { state: exports::CsvRecordState::default(), dialect: dialect.into() }
    }

    /// Returns the size of the record at the start of `bytes`, if its line ending is there. The
    /// result does not depend on what follows.
    ///
    /// `bytes` must be the bytes of the previous call, followed by a new chunk; otherwise the
    /// result may be wrong. `None` means that `bytes` contains no record with its line ending, and
    /// that at most three more bytes can complete one. A quoted field without a closing quote never
    /// ends, so the caller must limit how many bytes are buffered. The last record may have no line
    /// ending: at the end of the input, parse it with [`record`](crate::csv::record).
    ///
    /// # Errors
    ///
    /// [`Error::Invalid`] if `bytes` does not start with a record, regardless of what follows; it
    /// holds the offset of the first invalid byte. [`Error::InvalidDialect`] if there is no such
    /// dialect.
    pub fn advance(&mut self, bytes: &[u8]) -> Result<Option<Size>, Error> {
        let mut out = exports::CsvRecordSizes::default();
        let given = self.dialect.given();
        let state = &mut self.state;
        // SAFETY: the pointers are those of live borrows, and the bytes are only read. The call takes up
        // to 4 KiB of stack (measured); where there is less, the thread's guard page ends the program.
        let code = unsafe {
            exports::exported_csv_record_extent(
                state,
                bytes.as_ptr(),
                bytes.len(),
                &given,
                &mut out,
            )
        };
        match code {
            exports::DONE => {
                let required = RequiredSize { entries: out.fields, bytes: out.text };
                Ok(Some(Size { length: out.length, required }))
            }
            exports::INCOMPLETE => Ok(None),
            code => Err(Error::of(code, Some(out.error_offset), NOTHING)),
        }
    }
}
