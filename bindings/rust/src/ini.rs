//! INI files of any dialect: `.ini`, `.cfg`, `.desktop`. [`entries`] returns all entries, [`get`] a
//! value by its section and key.
//!
//! ```
//! use pergidau::ini::{entries, get, Dialect, Entry};
//!
//! let text = "[server]\nport: 80\nhosts = a\n  b\n";
//! let mut found = entries(text, Dialect::PYTHON);
//! assert_eq!(found.next(), Some(Ok(Entry::Section("server"))));
//! assert_eq!(found.next(), Some(Ok(Entry::Pair { key: "port", value: Some("80") })));
//! assert_eq!(found.next(), Some(Ok(Entry::Pair { key: "hosts", value: Some("a") })));
//! assert_eq!(found.next(), Some(Ok(Entry::More("b"))));
//! assert_eq!(found.next(), None);
//! let error = entries("[server]\nport\n", Dialect::PYTHON).last().unwrap().unwrap_err();
//! assert_eq!(error.to_string(), "missing delimiter after the key at offset 9");
//!
//! let port = get(text, Dialect::PYTHON, "server", "port").unwrap().unwrap();
//! assert_eq!(port.value, Some("80"));
//! ```
use crate::exports::{self, IniEntry, IniState};
use crate::{Position, Span};
use core::fmt;

/// The delimiter that ends a key: the first one in its line.
#[derive(Clone, Copy, Debug, PartialEq, Eq)]
pub enum Delimiters {
    /// Only `=`; a colon is part of a key.
    Equals,
    /// Only `:`; an equals sign is part of a key.
    Colon,
    /// One or the other.
    Either,
}

/// The character that starts a comment.
#[derive(Clone, Copy, Debug, PartialEq, Eq)]
pub enum Marks {
    /// Nothing: there are no such comments.
    Neither,
    /// Only `#`.
    NumberSign,
    /// Only `;`.
    Semicolon,
    /// One or the other.
    Either,
}

/// The meaning of a line that is indented deeper than the pair before it.
#[derive(Clone, Copy, Debug, PartialEq, Eq)]
pub enum Continued {
    /// It is a line of its own.
    Never,
    /// It continues the value of that pair. An empty line or a comment ends the value.
    UntilEmpty,
    /// It continues the value of that pair, and empty lines within are part of the value. Comments
    /// within are skipped.
    PastEmpty,
}

/// How lines are read.
///
/// ```
/// use pergidau::ini::{entries, Delimiters, Dialect, Entry};
///
/// let dialect = Dialect { delimiters: Delimiters::Colon, ..Dialect::LENIENT };
/// let found = entries("a=b: c", dialect).next();
/// assert_eq!(found, Some(Ok(Entry::Pair { key: "a=b", value: Some("c") })));
/// ```
#[derive(Clone, Copy, Debug, PartialEq, Eq)]
pub struct Dialect {
    /// The delimiters that end a key.
    pub delimiters: Delimiters,
    /// The characters that start a comment if they are the first in a line, after whitespace.
    pub comments: Marks,
    /// The characters that start a comment at the start of a line, or after whitespace in it.
    pub inline_comments: Marks,
    /// The meaning of a line that is indented deeper than the pair before it.
    pub continued: Continued,
    /// Whether a line without a delimiter is a key without a value; otherwise it is an error.
    pub valueless: bool,
    /// Whether pairs may precede the first section; otherwise they are an error.
    pub before_sections: bool,
    /// Whether the name of a section ends at the last `]` of its line, and text after that is
    /// ignored. Then a line that starts with `[` and has no such name is a pair. Otherwise the name
    /// ends at the first `]`, and such lines are errors.
    pub loose_sections: bool,
}

impl Dialect {
    /// The default dialect of Python's `configparser`: `=` and `:`, `#` and `;` at the start of
    /// lines, continued lines with empty lines within, loose sections.
    pub const PYTHON: Dialect = Dialect {
        delimiters: Delimiters::Either,
        comments: Marks::Either,
        inline_comments: Marks::Neither,
        continued: Continued::PastEmpty,
        valueless: false,
        before_sections: false,
        loose_sections: true,
    };

    /// The dialect of desktop entries: `=`, `#` at the start of lines, a line for each pair.
    pub const DESKTOP: Dialect = Dialect {
        delimiters: Delimiters::Equals,
        comments: Marks::NumberSign,
        inline_comments: Marks::Neither,
        continued: Continued::Never,
        valueless: false,
        before_sections: false,
        loose_sections: false,
    };

    /// The dialect that reads most: `=` and `:`, comments after whitespace too, keys without
    /// values, pairs before the first section, loose sections, a line for each pair.
    pub const LENIENT: Dialect = Dialect {
        delimiters: Delimiters::Either,
        comments: Marks::Either,
        inline_comments: Marks::Either,
        continued: Continued::Never,
        valueless: true,
        before_sections: true,
        loose_sections: true,
    };

    /// The sum of its flags.
    const fn flags(self) -> usize {
        let delimiters = match self.delimiters {
            Delimiters::Equals => exports::INI_DIALECT_EQUALS,
            Delimiters::Colon => exports::INI_DIALECT_COLON,
            Delimiters::Either => exports::INI_DIALECT_EQUALS | exports::INI_DIALECT_COLON,
        };
        let comments = self.comments.flags(
            exports::INI_DIALECT_NUMBER_SIGN,
            exports::INI_DIALECT_SEMICOLON,
        );
        let inline_comments = self.inline_comments.flags(
            exports::INI_DIALECT_INLINE_NUMBER_SIGN,
            exports::INI_DIALECT_INLINE_SEMICOLON,
        );
        let continued = match self.continued {
            Continued::Never => 0,
            Continued::UntilEmpty => exports::INI_DIALECT_UNTIL_EMPTY,
            Continued::PastEmpty => exports::INI_DIALECT_PAST_EMPTY,
        };
        let valueless = if self.valueless { exports::INI_DIALECT_VALUELESS } else { 0 };
        let before = if self.before_sections { exports::INI_DIALECT_BEFORE_SECTIONS } else { 0 };
        let loose = if self.loose_sections { exports::INI_DIALECT_LOOSE_SECTIONS } else { 0 };
        delimiters | comments | inline_comments | continued | valueless | before | loose
    }
}

impl Marks {
    /// The sum of those of these flags that it has.
    const fn flags(self, number_sign: usize, semicolon: usize) -> usize {
        match self {
            Marks::Neither => 0,
            Marks::NumberSign => number_sign,
            Marks::Semicolon => semicolon,
            Marks::Either => number_sign | semicolon,
        }
    }
}

// The dialects with names are those of the library.
const _: () = assert!(Dialect::PYTHON.flags() == exports::INI_DIALECT_PYTHON);
const _: () = assert!(Dialect::DESKTOP.flags() == exports::INI_DIALECT_DESKTOP);
const _: () = assert!(Dialect::LENIENT.flags() == exports::INI_DIALECT_LENIENT);

/// The content of a line.
#[derive(Clone, Copy, Debug, PartialEq, Eq)]
pub enum Entry<'i> {
    /// `[name]` begins a section.
    Section(&'i str),
    /// A pair, with its value, or the part of the value on this line.
    Pair {
        /// The key, without whitespace at either end.
        key: &'i str,
        /// The value, without whitespace at either end; `None` if there is no delimiter.
        value: Option<&'i str>,
    },
    /// One more line of the value of the pair before, without whitespace at either end. It is
    /// empty for an empty line, also where no other line of the value follows.
    More(&'i str),
}

/// Why a line is none of the dialect.
#[derive(Clone, Copy, Debug, PartialEq, Eq)]
#[non_exhaustive]
pub enum Reason {
    /// The line starts with `[` and has no `]`.
    UnclosedSection,
    /// There is nothing between `[` and `]`.
    EmptySection,
    /// There is text after the `]`.
    TrailingText,
    /// There is no section before the pair.
    MissingSection,
    /// There is no key before the delimiter.
    MissingKey,
    /// There is no delimiter.
    MissingDelimiter,
    /// The library said what this crate does not know: it is another one.
    Unknown(u32),
}

impl Reason {
    /// The reason of this number.
    fn of(number: u32) -> Reason {
        match number {
            exports::INI_ERROR_UNCLOSED_SECTION => Reason::UnclosedSection,
            exports::INI_ERROR_EMPTY_SECTION => Reason::EmptySection,
            exports::INI_ERROR_TRAILING_TEXT => Reason::TrailingText,
            exports::INI_ERROR_MISSING_SECTION => Reason::MissingSection,
            exports::INI_ERROR_MISSING_KEY => Reason::MissingKey,
            exports::INI_ERROR_MISSING_DELIMITER => Reason::MissingDelimiter,
            number => Reason::Unknown(number),
        }
    }
}

impl fmt::Display for Reason {
    fn fmt(&self, f: &mut fmt::Formatter<'_>) -> fmt::Result {
        f.write_str(match self {
            Reason::UnclosedSection => "unclosed section header",
            Reason::EmptySection => "empty section name",
            Reason::TrailingText => "unexpected text after a section header",
            Reason::MissingSection => "pair before the first section header",
            Reason::MissingKey => "missing key before the delimiter",
            Reason::MissingDelimiter => "missing delimiter after the key",
            Reason::Unknown(_) => "invalid line for an unknown reason",
        })
    }
}

/// The line that is none of the dialect: where it begins, and why.
#[derive(Clone, Copy, Debug, PartialEq, Eq)]
pub struct LineError {
    /// The offset in bytes at which the line begins.
    pub offset: usize,
    /// Why it is none.
    pub reason: Reason,
}

impl fmt::Display for LineError {
    fn fmt(&self, f: &mut fmt::Formatter<'_>) -> fmt::Result {
        write!(f, "{} at offset {}", self.reason, self.offset)
    }
}

impl LineError {
    /// Returns the line and the column at which the line begins in `text`, the text of the entries.
    ///
    /// ```
    /// use pergidau::ini::{entries, Dialect};
    ///
    /// let text = "[server]\nport\n";
    /// let error = entries(text, Dialect::PYTHON).last().unwrap().unwrap_err();
    /// assert_eq!(error.position(text).to_string(), "line 2, column 1");
    /// ```
    pub fn position(&self, text: &str) -> Position {
        Position::of(text.as_bytes(), self.offset)
    }
}

#[cfg(feature = "std")]
impl std::error::Error for LineError {}

/// The entries of a document, in order, as [`entries`] makes them. After an error there are none.
#[derive(Clone, Debug)]
pub struct Entries<'i> {
    text: &'i str,
    flags: usize,
    state: IniState,
    is_over: bool,
}

/// Returns an iterator over the entries of a document. A byte order mark at the start is skipped.
///
/// The first line that is invalid in the dialect gives an error with its offset and the reason. Nothing is allocated. All calls for a document take time linear in its length.
///
/// ```
/// use pergidau::ini::{entries, Dialect, Entry, Reason};
///
/// let text = "[Desktop Entry]\n# a comment\nExec=run --now\n=x\n";
/// let mut found = entries(text, Dialect::DESKTOP);
/// assert_eq!(found.next(), Some(Ok(Entry::Section("Desktop Entry"))));
/// assert_eq!(found.next(), Some(Ok(Entry::Pair { key: "Exec", value: Some("run --now") })));
/// let error = found.next().unwrap().unwrap_err();
/// assert_eq!((error.offset, error.reason), (43, Reason::MissingKey));
/// assert_eq!(found.next(), None);
/// ```
pub fn entries(text: &str, dialect: Dialect) -> Entries<'_> {
    Entries { text, flags: dialect.flags(), state: IniState::default(), is_over: false }
}

impl<'i> Iterator for Entries<'i> {
    type Item = Result<Entry<'i>, LineError>;

    fn next(&mut self) -> Option<Result<Entry<'i>, LineError>> {
        if self.is_over {
            return None;
        }
        let mut out = IniEntry::default();
        let (text, bytes) = (self.text, self.text.as_bytes());
        // SAFETY: the pointers are those of live borrows, and the bytes are only read. The call
        // takes up to 1 KiB of stack (measured); where there is less, the thread's guard page ends
        // the program.
        let code = unsafe {
            exports::exported_ini_next(
                &mut self.state, bytes.as_ptr(), bytes.len(), self.flags, &mut out,
            )
        };
        match code {
            exports::DONE => Some(Ok(entry_of(text, out))),
            exports::INVALID => {
                self.is_over = true;
                Some(Err(error_of(out)))
            }
            code => {
                debug_assert_eq!(code, exports::END);
                self.is_over = true;
                None
            }
        }
    }
}

impl core::iter::FusedIterator for Entries<'_> {}

/// Returns the entry that a call wrote.
fn entry_of(text: &str, out: IniEntry) -> Entry<'_> {
    let at = |place: Span| &text[place.offset..][..place.length];
    match out.kind {
        exports::INI_SECTION => Entry::Section(at(out.key)),
        exports::INI_PAIR => Entry::Pair { key: at(out.key), value: Some(at(out.value)) },
        exports::INI_KEY => Entry::Pair { key: at(out.key), value: None },
        kind => {
            debug_assert_eq!(kind, exports::INI_MORE);
            Entry::More(at(out.value))
        }
    }
}

/// Returns the error that a call wrote.
fn error_of(out: IniEntry) -> LineError {
    LineError { offset: out.error_offset, reason: Reason::of(out.error) }
}

/// A pair that [`get`] found.
#[derive(Clone, Debug)]
pub struct Found<'i> {
    /// The value on the line of the key; `None` if there is no delimiter.
    pub value: Option<&'i str>,
    /// The entries after that line. Each [`Entry::More`] that they start with continues the value.
    pub rest: Entries<'i>,
}

/// Finds the first pair with a key in the sections of a name. The name of pairs before the first
/// section is empty. Returns `None` if the document has no such pair.
///
/// Lines after the pair are not checked. A call takes time linear in the bytes up to the pair; for
/// many keys, one pass by [`entries`] costs less. Nothing is allocated.
///
/// # Errors
///
/// A line before any such pair is invalid in the dialect.
///
/// ```
/// use pergidau::ini::{get, Dialect, Entry};
///
/// let text = "[a]\nx = 1\n[b]\nx = 2\n  3\n";
/// let found = get(text, Dialect::PYTHON, "b", "x")?.unwrap();
/// assert_eq!(found.value, Some("2"));
/// assert!(found.rest.eq([Ok(Entry::More("3"))]));
/// assert!(get(text, Dialect::PYTHON, "b", "y")?.is_none());
/// assert_eq!(get("x = 1", Dialect::LENIENT, "", "x")?.unwrap().value, Some("1"));
/// # Ok::<(), pergidau::ini::LineError>(())
/// ```
pub fn get<'i>(
    text: &'i str,
    dialect: Dialect,
    section: &str,
    key: &str,
) -> Result<Option<Found<'i>>, LineError> {
    let (mut rest, mut out) = (entries(text, dialect), IniEntry::default());
    // SAFETY: the pointers are those of live borrows, and the bytes are only read. The call takes up
    // to 1 KiB of stack (measured); where there is less, the thread's guard page ends the program.
    let code = unsafe {
        exports::exported_ini_get(
            &mut rest.state, text.as_ptr(), text.len(), rest.flags, section.as_ptr(), section.len(),
            key.as_ptr(), key.len(), &mut out,
        )
    };
    match (code, entry_of(text, out)) {
        (exports::DONE, Entry::Pair { value, .. }) => Ok(Some(Found { value, rest })),
        (exports::INVALID, _) => Err(error_of(out)),
        (code, _) => {
            debug_assert_eq!(code, exports::END);
            Ok(None)
        }
    }
}
