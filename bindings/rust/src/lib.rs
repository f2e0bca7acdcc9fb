//! Proved readers: the result of each function is proved to be as documented, for all inputs.
//!
//! They are written in Rattle, which is Rust with contracts, and linked as a C library; the proved
//! contracts are in the crate `exported` of Pergidau. This crate adds a Rust interface: slices as
//! input, slices of them as output, and errors. It has no state. Of its own functions only those
//! of the feature `alloc` allocate, which is a part of `std`: owned documents, and calls that grow
//! a buffer until it is large enough. The library may allocate during a call, and frees that memory
//! before it returns. The documentation of a function gives the memory that a call needs; a comment
//! at `unsafe` gives the stack. Both are measured, not proved.
//!
//! | Module | Parses |
//! |---|---|
//! | [`calc`] | formulas of integers |
//! | [`csv`] | records of comma-separated values, which it also writes |
//! | [`dns`] | messages of the Domain Name System |
//! | [`http`] | heads of requests and responses of HTTP/1.1, and chunked bodies |
//! | [`ini`] | INI files of any dialect |
//! | [`json`] | JSON texts, and the values in them |
//! | [`pairs`] | lines of a key and a value, and documents of them, by a fixed grammar |
//! | [`resp`] | Redis replies; it writes commands |
//! | [`toml`] | TOML documents |
//!
//! ```
//! use pergidau::{calc, pairs};
//!
//! assert_eq!(calc::value("2 + 3 * 4"), Ok(14));
//! assert_eq!(pairs::line(b"key=value\n"), Ok((&b"key"[..], &b"value"[..])));
//! let error = calc::value("1 +\n 2 / 0").unwrap_err();
//! assert_eq!(error.to_string(), "invalid input at offset 10");
//! assert_eq!(error.position("1 +\n 2 / 0").unwrap().to_string(), "line 2, column 7");
//! ```
//!
//! # The library
//!
//! `build.rs` links the library from the folder that `PERGIDAU_LIB` names; otherwise as
//! `pkg-config` reports; otherwise from `bindings/out` next to this crate. If none of these has it,
//! the error message gives the command to run. A program links only with a library of
//! the same ABI, because it refers to a symbol that contains its number. For a trial,
//! `PERGIDAU_UNPROVED=1` selects a library that was built without proofs; [`is_proved`] reports
//! which one is linked.
#![cfg_attr(not(feature = "std"), no_std)]
#![warn(missing_docs)]

#[cfg(feature = "alloc")]
extern crate alloc;

mod bytes;
pub mod calc;
pub mod csv;
pub mod dns;
mod error;
// (some constants are only for C)
#[allow(dead_code)]
mod exports;
pub mod http;
pub mod ini;
pub mod json;
mod nodes;
pub mod pairs;
pub mod resp;
pub mod toml;

pub use crate::bytes::Bytes;
pub use crate::error::{Error, Position, RequiredSize};
pub use crate::exports::{Span, MAX_DEPTH};

/// The examples of the page of this crate are run as those of its documentation.
#[cfg(doctest)]
#[doc = include_str!("../README.md")]
pub struct Page;

/// No required size.
const NOTHING: RequiredSize = RequiredSize { entries: 0, bytes: 0 };

/// Returns the slice of `bytes` with the span `place`.
fn at(bytes: &[u8], place: Span) -> &[u8] {
    &bytes[place.offset..][..place.length]
}

/// Returns the double that is nearest to a decimal number; of two, the one whose last bit is 0. This
/// includes floats of TOML, numbers of JSON and doubles of Redis. Returns `None` for other texts; the
/// accepted ones are those of [`f64::from_str`](core::str::FromStr), which gives the same.
///
/// ```
/// assert_eq!(pergidau::double(b"-2.50e1"), Some(-25.0));
/// assert_eq!(pergidau::double("1e400"), Some(f64::INFINITY));
/// assert_eq!(pergidau::double("1,5"), None);
/// ```
pub fn double(text: impl AsRef<[u8]>) -> Option<f64> {
    let (bytes, mut out) = (text.as_ref(), 0.0);
    // SAFETY: the pointers are those of live borrows, and the bytes are only read. The call takes up to
    // 4 KiB of stack (measured); where there is less, the thread's guard page ends the program.
    let code = unsafe { exports::exported_text_double(bytes.as_ptr(), bytes.len(), &mut out) };
    (code == exports::DONE).then_some(out)
}

/// Returns the version of the linked library.
///
/// ```
/// assert_eq!(pergidau::version(), env!("CARGO_PKG_VERSION"));
/// ```
pub fn version() -> &'static str {
    // SAFETY: the string belongs to the library, never changes, and ends with a zero byte.
    let text = unsafe { core::ffi::CStr::from_ptr(exports::pergidau_version()) };
    text.to_str().unwrap_or("")
}

/// Returns whether the linked library was proved before it was compiled. The library of
/// `bindings/build --unproved` was not.
pub fn is_proved() -> bool {
    // SAFETY: the function has no arguments, and reads no memory of the caller.
    unsafe { exports::pergidau_is_proved() == 1 }
}
