//! Slices that the library reads from an array.
use crate::exports;
#[cfg(feature = "alloc")]
use crate::Error;
#[cfg(feature = "alloc")]
use alloc::vec::Vec;
use core::fmt;
use core::marker::PhantomData;

/// A slice in an array that a function takes, like `std::io::IoSlice`.
///
/// ```
/// let parts = [b"GET".into(), "key".into(), pergidau::Bytes::new(&[1, 2])];
/// let lengths: Vec<_> = parts.iter().map(|part: &pergidau::Bytes| part.get().len()).collect();
/// assert_eq!(lengths, [3, 3, 2]);
/// ```
#[derive(Clone, Copy)]
#[repr(transparent)]
pub struct Bytes<'a> {
    slice: exports::Bytes,
    bytes: PhantomData<&'a [u8]>,
}

// SAFETY: it is a shared borrow of bytes, which threads can share.
unsafe impl Send for Bytes<'_> {}
// SAFETY: the same.
unsafe impl Sync for Bytes<'_> {}

impl<'a> Bytes<'a> {
    /// Returns the entry for a slice.
    pub fn new(bytes: &'a [u8]) -> Bytes<'a> {
        let slice = exports::Bytes { bytes: bytes.as_ptr(), bytes_length: bytes.len() };
        Bytes { slice, bytes: PhantomData }
    }

    /// Returns the slice.
    pub fn get(&self) -> &'a [u8] {
        // SAFETY: they are the pointer and the length of a slice that is borrowed for `'a`.
        unsafe { core::slice::from_raw_parts(self.slice.bytes, self.slice.bytes_length) }
    }

    /// Returns the entries of an array as the exports take them, and their number.
    pub(crate) fn given(slices: &[Bytes<'_>]) -> (*const exports::Bytes, usize) {
        (slices.as_ptr().cast(), slices.len())
    }
}

impl<'a, T: AsRef<[u8]> + ?Sized> From<&'a T> for Bytes<'a> {
    fn from(bytes: &'a T) -> Bytes<'a> {
        Bytes::new(bytes.as_ref())
    }
}

impl fmt::Debug for Bytes<'_> {
    fn fmt(&self, f: &mut fmt::Formatter<'_>) -> fmt::Result {
        self.get().fmt(f)
    }
}

/// Appends what `write` writes into a buffer. `expected` is a number of bytes that usually suffices,
/// so that one call does.
#[cfg(feature = "alloc")]
pub(crate) fn append(
    out: &mut Vec<u8>,
    expected: usize,
    write: impl Fn(&mut [u8]) -> Result<usize, Error>,
) -> Result<(), Error> {
    let start = out.len();
    out.resize(start + expected, 0);
    let mut written = write(&mut out[start..]);
    if let Err(Error::BufferTooSmall(required)) = written {
        out.resize(start + required.bytes, 0);
        written = write(&mut out[start..]);
    }
    out.truncate(start + *written.as_ref().unwrap_or(&0));
    written.map(drop)
}
