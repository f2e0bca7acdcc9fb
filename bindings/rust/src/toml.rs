//! Documents of TOML 1.0.
//!
//! ```
//! use pergidau::toml::{self, Node};
//!
//! let text = "[server]\nhost = \"a\"\nports = [80, 443]\n";
//! let (mut names, mut nodes) = ([0; 64], [Node::default(); 16]);
//! let document = toml::parse(text, 8, &mut names, &mut nodes)?;
//! let server = document.root().get("server").unwrap();
//! assert_eq!(server.get("host").and_then(|host| host.as_str()), Some("a"));
//! let ports: Vec<_> = server.get("ports").unwrap().elements().collect();
//! assert_eq!(ports[1].as_i64(), Some(443));
//! # Ok::<(), pergidau::toml::Error>(())
//! ```
mod date_times;

pub use crate::exports::TomlNode as Node;
pub use date_times::{Clock, DateTime};

use crate::{double, exports, Bytes, Position, RequiredSize, Span};
#[cfg(feature = "alloc")]
use alloc::{string::String, vec, vec::Vec};
use core::{fmt, str};

/// The reason why a text is not a document, and its offset in bytes.
#[derive(Clone, Copy, Debug, PartialEq, Eq)]
#[non_exhaustive]
pub enum Error {
    /// A syntax error: no document continues with the character at the offset, or the text ends there
    /// and is incomplete. It comes before the other errors.
    Unexpected {
        /// The offset of that character, or the length of the text.
        offset: usize,
        /// The element that is expected there.
        expected: Expected,
        /// The offset of the innermost string, array or inline table that is not closed.
        unclosed: Option<usize>,
    },
    /// The standard forbids the line that starts at the offset, because of earlier lines.
    Invalid(usize, Reason),
    /// An error that is not specific to TOML.
    Other(crate::Error),
}

/// The expected element at an offset.
#[derive(Clone, Copy, Debug, PartialEq, Eq)]
#[non_exhaustive]
pub enum Expected {
    /// A key or a table.
    KeyOrTable,
    /// A key.
    Key,
    /// A key, or the brace that closes an inline table.
    KeyOrBrace,
    /// The name of a table.
    TableName,
    /// The equals sign after a key, or a point in the key.
    EqualsSign,
    /// The bracket after the name of a table, or a point in the name.
    ClosingBracket,
    /// The second bracket after the name of an array of tables.
    SecondBracket,
    /// A value.
    Value,
    /// A value, or the bracket that closes an array.
    ValueOrBracket,
    /// A comma, or the bracket that closes an array.
    CommaOrBracket,
    /// A comma, or the brace that closes an inline table.
    CommaOrBrace,
    /// The end of the line, or a comment.
    LineEnd,
    /// The line feed after a carriage return.
    LineFeed,
    /// A character of a comment that is not a control character, or the end of the line.
    Comment,
    /// A character of a string, or its closing quotation mark.
    BasicString,
    /// A character of a literal string, or its closing quotation mark.
    LiteralString,
    /// A character of a multi-line string, or its three quotation marks.
    LongBasicString,
    /// A character of a multi-line literal string, or its three quotation marks.
    LongLiteralString,
    /// The character after a backslash.
    Escape,
    /// The character after a backslash, or the end of the line.
    LongEscape,
    /// The end of the line after a backslash and whitespace.
    EscapedLineEnd,
    /// A hexadecimal digit.
    HexDigit,
    /// A hexadecimal digit with which the number of a character can begin.
    ScalarDigit,
    /// The next letter of `true`, `false`, `inf` or `nan`.
    Word,
    /// A digit, `inf` or `nan`.
    DigitOrWord,
    /// A digit.
    Digit,
    /// A digit, or the sign of an exponent.
    DigitOrSign,
    /// A digit of an octal integer.
    OctalDigit,
    /// A digit of a binary integer.
    BinaryDigit,
    /// An integer of 64 bits: this one is too large.
    SmallerInteger,
    /// A year or an hour, as a number has no leading zeros.
    YearOrHour,
    /// A month.
    Month,
    /// A day of the month.
    Day,
    /// An hour.
    Hour,
    /// A minute.
    Minute,
    /// A second.
    Second,
    /// A hyphen in a date.
    Hyphen,
    /// A colon in a time.
    Colon,
    /// No opening bracket or brace: the maximum number is open.
    NoDeeper,
    /// No byte order mark.
    NoByteOrderMark,
}

/// The reason why a line is rejected.
#[derive(Clone, Copy, Debug, PartialEq, Eq)]
pub enum Reason {
    /// Its key is already defined.
    Defined,
    /// It uses a value as a table.
    NotATable,
    /// It extends a closed table: an inline table, or with dotted keys a table of a header.
    Closed,
    /// It adds a table to a key that is not an array of tables.
    NotAnArrayOfTables,
    /// It makes a table or an array that is nested deeper than the depth limit.
    TooDeep,
}

impl fmt::Display for Error {
    fn fmt(&self, f: &mut fmt::Formatter<'_>) -> fmt::Result {
        match self {
            Error::Unexpected { offset, expected, unclosed } => {
                write!(f, "expected {expected} at offset {offset}")?;
                unclosed.map_or(Ok(()), |start| write!(f, ", unclosed from offset {start}"))
            }
            Error::Invalid(offset, reason) => write!(f, "{reason} at offset {offset}"),
            Error::Other(error) => error.fmt(f),
        }
    }
}

impl fmt::Display for Expected {
    fn fmt(&self, f: &mut fmt::Formatter<'_>) -> fmt::Result {
        f.write_str(match self {
            Expected::KeyOrTable => "a key or a table",
            Expected::Key => "a key",
            Expected::KeyOrBrace => "a key or `}`",
            Expected::TableName => "the name of a table",
            Expected::EqualsSign => "`.` or `=`",
            Expected::ClosingBracket => "`.` or `]`",
            Expected::SecondBracket => "`]`",
            Expected::Value => "a value",
            Expected::ValueOrBracket => "a value or `]`",
            Expected::CommaOrBracket => "a comma or `]`",
            Expected::CommaOrBrace => "a comma or `}`",
            Expected::LineEnd => "the end of the line",
            Expected::LineFeed => "a line feed",
            Expected::Comment => "a character of a comment or the end of the line",
            Expected::BasicString => "a character of a string or `\"`",
            Expected::LiteralString => "a character of a string or `'`",
            Expected::LongBasicString => "a character of a string or `\"\"\"`",
            Expected::LongLiteralString => "a character of a string or `'''`",
            Expected::Escape => "the character of an escape",
            Expected::LongEscape => "the character of an escape or the end of the line",
            Expected::EscapedLineEnd => "the end of the line after `\\`",
            Expected::HexDigit => "a hexadecimal digit",
            Expected::ScalarDigit => "a hexadecimal digit of a Unicode scalar value",
            Expected::Word => "the next letter of `true`, `false`, `inf` or `nan`",
            Expected::DigitOrWord => "a digit, `inf` or `nan`",
            Expected::Digit => "a digit",
            Expected::DigitOrSign => "a digit or a sign",
            Expected::OctalDigit => "a digit from 0 to 7",
            Expected::BinaryDigit => "a digit from 0 to 1",
            Expected::SmallerInteger => "an integer of 64 bits",
            Expected::YearOrHour => "a year or an hour, or a number without leading zeros",
            Expected::Month => "a month from 01 to 12",
            Expected::Day => "a day of the month",
            Expected::Hour => "an hour from 00 to 23",
            Expected::Minute => "a minute from 00 to 59",
            Expected::Second => "a second from 00 to 60",
            Expected::Hyphen => "`-`",
            Expected::Colon => "`:`",
            Expected::NoDeeper => "no deeper array or inline table",
            Expected::NoByteOrderMark => "no byte order mark",
        })
    }
}

impl fmt::Display for Reason {
    fn fmt(&self, f: &mut fmt::Formatter<'_>) -> fmt::Result {
        f.write_str(match self {
            Reason::Defined => "key is already defined",
            Reason::NotATable => "key is not a table",
            Reason::Closed => "table cannot be extended",
            Reason::NotAnArrayOfTables => "key is not an array of tables",
            Reason::TooDeep => "table or array is nested too deep",
        })
    }
}

#[cfg(feature = "std")]
impl std::error::Error for Error {}

impl Error {
    /// Returns the offset of the error in bytes, if there is one.
    pub fn offset(&self) -> Option<usize> {
        match self {
            Error::Unexpected { offset, .. } | Error::Invalid(offset, _) => Some(*offset),
            Error::Other(error) => error.offset(),
        }
    }

    /// Returns the line and the column of the error in `source`, the text that was parsed.
    pub fn position(&self, source: &str) -> Option<Position> {
        self.offset().map(|offset| Position::of(source.as_bytes(), offset))
    }

    /// Converts a code other than `DONE`, with the fields that were written.
    fn of(code: u32, out: &exports::TomlResult) -> Error {
        let offset = out.error_offset;
        let expected = match out.error {
            exports::TOML_ERROR_NONE => {
                let required = RequiredSize { entries: out.nodes, bytes: out.text };
                return Error::Other(crate::Error::of(code, Some(offset), required));
            }
            exports::TOML_ERROR_KEY_OR_TABLE => Expected::KeyOrTable,
            exports::TOML_ERROR_KEY => Expected::Key,
            exports::TOML_ERROR_KEY_OR_BRACE => Expected::KeyOrBrace,
            exports::TOML_ERROR_TABLE_NAME => Expected::TableName,
            exports::TOML_ERROR_EQUALS_SIGN => Expected::EqualsSign,
            exports::TOML_ERROR_CLOSING_BRACKET => Expected::ClosingBracket,
            exports::TOML_ERROR_SECOND_BRACKET => Expected::SecondBracket,
            exports::TOML_ERROR_VALUE => Expected::Value,
            exports::TOML_ERROR_VALUE_OR_BRACKET => Expected::ValueOrBracket,
            exports::TOML_ERROR_COMMA_OR_BRACKET => Expected::CommaOrBracket,
            exports::TOML_ERROR_COMMA_OR_BRACE => Expected::CommaOrBrace,
            exports::TOML_ERROR_LINE_END => Expected::LineEnd,
            exports::TOML_ERROR_LINE_FEED => Expected::LineFeed,
            exports::TOML_ERROR_COMMENT => Expected::Comment,
            exports::TOML_ERROR_BASIC_STRING => Expected::BasicString,
            exports::TOML_ERROR_LITERAL_STRING => Expected::LiteralString,
            exports::TOML_ERROR_LONG_BASIC_STRING => Expected::LongBasicString,
            exports::TOML_ERROR_LONG_LITERAL_STRING => Expected::LongLiteralString,
            exports::TOML_ERROR_ESCAPE => Expected::Escape,
            exports::TOML_ERROR_LONG_ESCAPE => Expected::LongEscape,
            exports::TOML_ERROR_ESCAPED_LINE_END => Expected::EscapedLineEnd,
            exports::TOML_ERROR_HEX_DIGIT => Expected::HexDigit,
            exports::TOML_ERROR_SCALAR_DIGIT => Expected::ScalarDigit,
            exports::TOML_ERROR_WORD => Expected::Word,
            exports::TOML_ERROR_DIGIT_OR_WORD => Expected::DigitOrWord,
            exports::TOML_ERROR_DIGIT => Expected::Digit,
            exports::TOML_ERROR_DIGIT_OR_SIGN => Expected::DigitOrSign,
            exports::TOML_ERROR_OCTAL_DIGIT => Expected::OctalDigit,
            exports::TOML_ERROR_BINARY_DIGIT => Expected::BinaryDigit,
            exports::TOML_ERROR_INTEGER_TOO_LARGE => Expected::SmallerInteger,
            exports::TOML_ERROR_YEAR_OR_HOUR => Expected::YearOrHour,
            exports::TOML_ERROR_MONTH => Expected::Month,
            exports::TOML_ERROR_DAY => Expected::Day,
            exports::TOML_ERROR_HOUR => Expected::Hour,
            exports::TOML_ERROR_MINUTE => Expected::Minute,
            exports::TOML_ERROR_SECOND => Expected::Second,
            exports::TOML_ERROR_HYPHEN => Expected::Hyphen,
            exports::TOML_ERROR_COLON => Expected::Colon,
            exports::TOML_ERROR_TOO_DEEP => Expected::NoDeeper,
            exports::TOML_ERROR_BYTE_ORDER_MARK => Expected::NoByteOrderMark,
            exports::TOML_ERROR_DEFINED => return Error::Invalid(offset, Reason::Defined),
            exports::TOML_ERROR_NOT_A_TABLE => return Error::Invalid(offset, Reason::NotATable),
            exports::TOML_ERROR_CLOSED => return Error::Invalid(offset, Reason::Closed),
            exports::TOML_ERROR_NOT_AN_ARRAY_OF_TABLES => {
                return Error::Invalid(offset, Reason::NotAnArrayOfTables);
            }
            exports::TOML_ERROR_LINE_TOO_DEEP => return Error::Invalid(offset, Reason::TooDeep),
            _ => return Error::Other(crate::Error::Unknown(code)),
        };
        let start = out.unclosed_offset;
        Error::Unexpected { offset, expected, unclosed: (start < offset).then_some(start) }
    }
}

/// A document, in the buffers that it was written into.
#[derive(Clone, Copy, Debug)]
pub struct Document<'b> {
    text: &'b str,
    nodes: &'b [Node],
}

impl<'b> Document<'b> {
    /// The table that has all others.
    pub fn root(&self) -> Item<'b> {
        Item { text: self.text, nodes: self.nodes, number: 0 }
    }

    /// All nodes, in the order in which the document first speaks of them.
    pub fn nodes(&self) -> &'b [Node] {
        self.nodes
    }

    /// Returns the text that the spans of the nodes refer to.
    ///
    /// ```
    /// use pergidau::toml::{self, Node};
    ///
    /// let (mut text, mut nodes) = ([0; 8], [Node::default(); 2]);
    /// let document = toml::parse("a = 'b'", 0, &mut text, &mut nodes)?;
    /// let name = document.nodes()[1].name;
    /// assert_eq!(&document.text()[name.offset..][..name.length], "a");
    /// # Ok::<(), pergidau::toml::Error>(())
    /// ```
    pub fn text(&self) -> &'b str {
        self.text
    }
}

/// A document in buffers of its own.
#[cfg(feature = "alloc")]
#[derive(Clone, Debug)]
pub struct OwnedDocument {
    text: String,
    nodes: Vec<Node>,
}

#[cfg(feature = "alloc")]
impl OwnedDocument {
    /// Parses a document, as [`parse`].
    ///
    /// ```
    /// let document = pergidau::toml::OwnedDocument::parse("[a]\nb = 'c'\n", 8)?;
    /// let b = document.root().get("a").and_then(|a| a.get("b")).unwrap();
    /// assert_eq!(b.as_str(), Some("c"));
    /// # Ok::<(), pergidau::toml::Error>(())
    /// ```
    pub fn parse(source: &str, max_depth: usize) -> Result<OwnedDocument, Error> {
        let (mut text, mut nodes) = (vec![0; source.len()], vec![Node::default(); 32]);
        let out = loop {
            match write(source, max_depth, &mut text, &mut nodes) {
                Err(Error::Other(crate::Error::BufferTooSmall(required))) => {
                    text.resize(required.bytes.max(text.len()), 0);
                    nodes.resize(required.entries.max(nodes.len()), Node::default());
                }
                found => break found?,
            }
        };
        text.truncate(out.text);
        nodes.truncate(out.nodes);
        let text = String::from_utf8(text).map_err(|_| crate::Error::InvalidUtf8);
        Ok(OwnedDocument { text: text.map_err(Error::Other)?, nodes })
    }

    /// The document, as slices of its buffers.
    pub fn document(&self) -> Document<'_> {
        Document { text: &self.text, nodes: &self.nodes }
    }

    /// The table that has all others.
    pub fn root(&self) -> Item<'_> {
        self.document().root()
    }
}

/// An item of a document: a table, an array or another value.
#[derive(Clone, Copy)]
pub struct Item<'b> {
    text: &'b str,
    nodes: &'b [Node],
    number: usize,
}

impl fmt::Debug for Item<'_> {
    fn fmt(&self, f: &mut fmt::Formatter<'_>) -> fmt::Result {
        f.debug_struct("Item").field("name", &self.name()).field("value", &self.value()).finish()
    }
}

/// A date.
#[derive(Clone, Copy, Debug, PartialEq, Eq)]
pub struct Date {
    /// The year, from 0 to 9999.
    pub year: u16,
    /// The month, from 1 to 12.
    pub month: u8,
    /// The day of the month, from 1 on.
    pub day: u8,
}

/// A time of day.
#[derive(Clone, Copy, Debug, PartialEq, Eq)]
pub struct Time<'b> {
    /// The hour, from 0 to 23.
    pub hour: u8,
    /// The minute, from 0 to 59.
    pub minute: u8,
    /// The second, from 0 to 60, which is a leap second.
    pub second: u8,
    /// The digits of the fraction of the second, as written.
    pub fraction: &'b str,
}

/// The value of an item.
#[derive(Clone, Copy, Debug, PartialEq, Eq)]
#[non_exhaustive]
pub enum Value<'b> {
    /// A table. Its entries are those of [`Item::entries`].
    Table,
    /// An array. Its elements are those of [`Item::elements`].
    Array,
    /// A string, its escapes undone.
    String(&'b str),
    /// An integer.
    Integer(i64),
    /// A float as its text without underscores, as `-1.5e+3`, `inf`, `nan`.
    Float(&'b str),
    /// The word `true` or `false`.
    Boolean(bool),
    /// A date and a time, with the offset from UTC in minutes; it is positive for times ahead of
    /// UTC.
    OffsetDateTime(Date, Time<'b>, i16),
    /// A date and a time with no offset.
    LocalDateTime(Date, Time<'b>),
    /// A date without a time.
    LocalDate(Date),
    /// A time without a date.
    LocalTime(Time<'b>),
}

impl<'b> Item<'b> {
    fn node(&self) -> &'b Node {
        &self.nodes[self.number]
    }

    fn at(&self, place: Span) -> &'b str {
        &self.text[place.offset..][..place.length]
    }

    /// The item of a node, or none for 0.
    fn item(&self, number: usize) -> Option<Item<'b>> {
        (number != 0).then_some(Item { number, ..*self })
    }

    fn date(&self) -> Date {
        let it = &self.node().value;
        Date { year: it.year, month: it.month, day: it.day }
    }

    fn time(&self) -> Time<'b> {
        let it = &self.node().value;
        let fraction = self.at(it.text);
        Time { hour: it.hour, minute: it.minute, second: it.second, fraction }
    }

    /// Returns its name in its table. Elements of arrays and the root table have no name.
    pub fn name(&self) -> Option<&'b str> {
        let node = self.node();
        (self.number != 0 && !node.is_element).then(|| self.at(node.name))
    }

    /// The value of an item.
    pub fn value(&self) -> Value<'b> {
        let it = &self.node().value;
        match it.kind {
            exports::TOML_ARRAY => Value::Array,
            exports::TOML_STRING => Value::String(self.at(it.text)),
            exports::TOML_INTEGER => Value::Integer(it.integer),
            exports::TOML_FLOAT => Value::Float(self.at(it.text)),
            exports::TOML_BOOLEAN => Value::Boolean(it.integer != 0),
            exports::TOML_OFFSET_DATE_TIME => {
                Value::OffsetDateTime(self.date(), self.time(), it.offset)
            }
            exports::TOML_LOCAL_DATE_TIME => Value::LocalDateTime(self.date(), self.time()),
            exports::TOML_LOCAL_DATE => Value::LocalDate(self.date()),
            exports::TOML_LOCAL_TIME => Value::LocalTime(self.time()),
            _ => Value::Table,
        }
    }

    /// The first in it, of a table or an array.
    fn first(&self) -> Option<Item<'b>> {
        self.item(self.node().first)
    }

    /// Returns the items in a table or an array, in the order in which the document first mentions
    /// them.
    pub fn children(&self) -> Children<'b> {
        Children { next: self.first() }
    }

    /// Returns the entries of a table, each with its name. The iterator is empty if the item is not
    /// a table.
    pub fn entries(&self) -> impl Iterator<Item = (&'b str, Item<'b>)> {
        self.children().filter_map(|it| Some((it.name()?, it)))
    }

    /// Returns the elements of an array, in order. The iterator is empty if the item is not an
    /// array.
    pub fn elements(&self) -> impl Iterator<Item = Item<'b>> {
        self.children().filter(|it| it.node().is_element)
    }

    /// The entry of a table that has this name. It looks at each entry before it.
    pub fn get(&self, name: &str) -> Option<Item<'b>> {
        self.get_path(&[name.into()])
    }

    /// Returns the item at a path of names, each in the table of the one before. It looks at each
    /// entry that precedes one of them in its table.
    ///
    /// ```
    /// let document = pergidau::toml::OwnedDocument::parse("[server]\nport = 80\n", 1)?;
    /// let port = document.root().get_path(&["server".into(), "port".into()]).unwrap();
    /// assert_eq!(port.as_i64(), Some(80));
    /// # Ok::<(), pergidau::toml::Error>(())
    /// ```
    pub fn get_path(&self, names: &[Bytes<'_>]) -> Option<Item<'b>> {
        let mut number = 0;
        let (parts, count) = Bytes::given(names);
        let (text, length) = (self.text.as_ptr(), self.text.len());
        let (nodes, size) = (self.nodes.as_ptr(), self.nodes.len());
        // SAFETY: the pointers are those of live borrows, and only the number is written. The call takes up
        // to 1 KiB of stack (measured); where there is less, the thread's guard page ends the program.
        let code = unsafe {
            exports::exported_toml_find(
                text, length, nodes, size, self.number, parts, count, &mut number,
            )
        };
        (code == exports::DONE).then_some(Item { number, ..*self })
    }

    /// The text, where it is a string.
    pub fn as_str(&self) -> Option<&'b str> {
        match self.value() {
            Value::String(text) => Some(text),
            _ => None,
        }
    }

    /// The number, where it is an integer.
    pub fn as_i64(&self) -> Option<i64> {
        match self.value() {
            Value::Integer(number) => Some(number),
            _ => None,
        }
    }

    /// The word, where it is `true` or `false`.
    pub fn as_bool(&self) -> Option<bool> {
        match self.value() {
            Value::Boolean(word) => Some(word),
            _ => None,
        }
    }

    /// The double that is nearest to a float, as [`double`].
    pub fn as_f64(&self) -> Option<f64> {
        match self.value() {
            Value::Float(text) => double(text),
            _ => None,
        }
    }

    /// Whether it is a table.
    pub fn is_table(&self) -> bool {
        self.node().value.kind == exports::TOML_TABLE
    }

    /// Whether it is an array.
    pub fn is_array(&self) -> bool {
        self.node().value.kind == exports::TOML_ARRAY
    }
}

/// An iterator over the items in a table or an array.
#[derive(Clone, Copy, Debug)]
pub struct Children<'b> {
    next: Option<Item<'b>>,
}

impl<'b> Iterator for Children<'b> {
    type Item = Item<'b>;

    fn next(&mut self) -> Option<Item<'b>> {
        let item = self.next?;
        self.next = item.item(item.node().next);
        Some(item)
    }
}

/// Parses a TOML document whose tables and arrays are nested at most `max_depth` deep. `[a]` and
/// `a.b = 1` nest a table in the root table, one level deep.
///
/// The nodes are written into `nodes`, and the bytes of their names and texts into `text`.
///
/// # Errors
///
/// - [`Error::Unexpected`] or [`Error::Invalid`] if `source` is not a document.
/// - [`Error::Other`] with [`crate::Error::BufferTooSmall`] if a buffer is too small; it holds the
///   required sizes.
/// - [`Error::Other`] with [`crate::Error::MaxDepthTooLarge`] if `max_depth` is above
///   [`MAX_DEPTH`](crate::MAX_DEPTH).
///
/// # Memory
///
/// A call holds up to 600 bytes of memory for each byte of the document (measured).
///
/// ```
/// use pergidau::toml::{self, Node};
///
/// let (mut text, mut nodes) = ([0; 64], [Node::default(); 8]);
/// let error = toml::parse("[a]\nb 2\n", 0, &mut text, &mut nodes).unwrap_err();
/// assert_eq!(error.to_string(), "expected `.` or `=` at offset 6");
/// assert_eq!(error.position("[a]\nb 2\n").unwrap().to_string(), "line 2, column 3");
/// let error = toml::parse("a = 1\na = 2\n", 0, &mut text, &mut nodes).unwrap_err();
/// assert_eq!(error.to_string(), "key is already defined at offset 6");
/// let error = toml::parse("a = 1\n[b]\n", 0, &mut text, &mut nodes).unwrap_err();
/// assert_eq!(error.to_string(), "table or array is nested too deep at offset 6");
/// ```
pub fn parse<'b>(
    source: &str,
    max_depth: usize,
    text: &'b mut [u8],
    nodes: &'b mut [Node],
) -> Result<Document<'b>, Error> {
    let out = write(source, max_depth, text, nodes)?;
    match str::from_utf8(&text[..out.text]) {
        Ok(text) => Ok(Document { text, nodes: &nodes[..out.nodes] }),
        Err(_) => Err(Error::Other(crate::Error::InvalidUtf8)),
    }
}

/// Returns the sizes of the document that was written.
fn write(
    source: &str,
    max_depth: usize,
    text: &mut [u8],
    nodes: &mut [Node],
) -> Result<exports::TomlResult, Error> {
    let mut out = exports::TomlResult::default();
    let (bytes, room) = (text.as_mut_ptr(), text.len());
    let (places, count) = (nodes.as_mut_ptr(), nodes.len());
    // SAFETY: the pointers are those of live borrows, and the text is only read. The call takes up to
    // 510 KiB of stack (measured); where there is less, the thread's guard page ends the program.
    let code = unsafe {
        exports::exported_toml_document(
            source.as_ptr(), source.len(), max_depth, bytes, room, places, count, &mut out,
        )
    };
    match code {
        exports::DONE => Ok(out),
        code => Err(Error::of(code, &out)),
    }
}
