//! The ends of values in input that arrives in chunks.
use crate::exports;
use crate::{Error, MAX_DEPTH, NOTHING};

/// The state of a search for the end of a JSON value in input that arrives in chunks. No call scans
/// again what an earlier one scanned, and no call allocates.
///
/// ```
/// use pergidau::json::{self, Extent};
///
/// let (mut bytes, mut extent, mut seen) = (Vec::new(), Extent::new(1), Vec::new());
/// for piece in ["{\"a\": tr", "ue}\n[1", ", 2]\n", "3"] {
///     bytes.extend(piece.as_bytes());
///     while let Some(length) = extent.advance(&bytes)? {
///         let value = json::parse(std::str::from_utf8(&bytes[..length]).unwrap(), 1)?;
///         seen.push(value.text().to_string());
///         bytes.drain(..length);
///     }
/// }
/// assert_eq!(extent.finish(&bytes)?, Some(2));
/// assert_eq!(seen, ["{\"a\": true}", "[1, 2]"]);
/// # Ok::<(), pergidau::Error>(())
/// ```
#[derive(Clone, Debug, PartialEq, Eq)]
pub struct Extent {
    state: exports::JsonValueState,
    max_depth: usize,
    brackets: [u8; MAX_DEPTH],
}

impl Extent {
    /// Returns the initial state, for values whose arrays and objects are nested at most
    /// `max_depth` deep.
    pub fn new(max_depth: usize) -> Extent {
        let state = exports::JsonValueState::default();
        Extent { state, max_depth, brackets: [0; MAX_DEPTH] }
    }

    /// Returns the length in bytes of the value at the start of `bytes`, and of the whitespace
    /// before it, if the value ends regardless of what follows. A number ends at the next byte.
    ///
    /// `bytes` must be the bytes of the previous call, followed by a new chunk; otherwise the
    /// result may be wrong. `None` means that more bytes are needed. After a value or an error the
    /// state is the initial state: pass the bytes after the value to find the next one.
    ///
    /// # Errors
    ///
    /// [`Error::Invalid`] or [`Error::TooDeep`] if `bytes` does not start with a value, regardless
    /// of what follows, with the offset of the first byte with which no value continues.
    /// [`Error::MaxDepthTooLarge`] if the depth limit is above [`MAX_DEPTH`].
    pub fn advance(&mut self, bytes: &[u8]) -> Result<Option<usize>, Error> {
        self.find(bytes, false)
    }

    /// Returns the same for complete input: a number may end at its end. `None` means that the
    /// input is only whitespace.
    ///
    /// # Errors
    ///
    /// Those of [`Extent::advance`]. If the input ends in a value, the error is
    /// [`Error::Invalid`], with the length of the input.
    pub fn finish(&mut self, bytes: &[u8]) -> Result<Option<usize>, Error> {
        self.find(bytes, true)
    }

    fn find(&mut self, bytes: &[u8], is_complete: bool) -> Result<Option<usize>, Error> {
        let brackets = self.brackets.get_mut(..self.max_depth).ok_or(Error::MaxDepthTooLarge)?;
        let mut out = 0;
        // SAFETY: the pointers are those of live borrows, and the bytes are only read. The call takes up
        // to 4 KiB of stack (measured); where there is less, the thread's guard page ends the program.
        let code = unsafe {
            let (from, count) = (bytes.as_ptr(), bytes.len());
            let (into, room) = (brackets.as_mut_ptr(), brackets.len());
            let complete = is_complete.into();
            exports::exported_json_extent(
                &mut self.state, from, count, complete, into, room, &mut out,
            )
        };
        match code {
            exports::DONE => Ok(Some(out)),
            exports::INCOMPLETE | exports::END => Ok(None),
            exports::TOO_DEEP => Err(Error::TooDeep(out)),
            code => Err(Error::of(code, Some(out), NOTHING)),
        }
    }
}
