//! Texts of JSON (RFC 8259), and the values in them one by one.
//!
//! [`steps`] walks a whole text in one pass, at any depth:
//!
//! ```
//! use pergidau::json::{self, Step};
//!
//! let mut total = 0;
//! for step in json::steps("{\"a\": [1, 2], \"b\": {\"c\": 3}}", 2)? {
//!     if let Step::Value(value) = step {
//!         total += value.as_i64().unwrap_or(0);
//!     }
//! }
//! assert_eq!(total, 6);
//! # Ok::<(), pergidau::Error>(())
//! ```
//!
//! [`nodes`] writes all values into a buffer, also in one pass, for callers that visit most of them.
//!
//! [`Extent`] finds where values end in input that arrives in chunks.
//!
//! [`Value::get`] and [`Value::pointer`] find single values:
//!
//! ```
//! let text = "{\"\\u0061\": [1, {\"b/c\": 2}]}";
//! let value = pergidau::json::parse(text, 3)?;
//! assert_eq!(value.get("a").unwrap().at(0).unwrap().as_i64(), Some(1));
//! assert_eq!(value.pointer("/a/1/b~1c").unwrap().as_u64(), Some(2));
//! # Ok::<(), pergidau::Error>(())
//! ```
use crate::exports::{self, JsonItem};
use crate::{Error, NOTHING};

mod diagnostic;
mod extent;
mod lookup;
mod nodes;
mod scalars;
mod steps;
mod write;

pub use diagnostic::{diagnose, Diagnostic, Expected};
pub use extent::Extent;
pub use nodes::{nodes, Item, ItemElements, ItemMembers, Node, Nodes};
#[cfg(feature = "alloc")]
pub use nodes::OwnedNodes;
pub use scalars::{unescape, Decimal};
pub use steps::{steps, Step, Steps};
#[cfg(feature = "alloc")]
pub use write::append_string;
pub use write::write_string;

/// The type of a value.
#[derive(Clone, Copy, Debug, PartialEq, Eq)]
pub enum Kind {
    /// The word null.
    Null,
    /// The word false.
    False,
    /// The word true.
    True,
    /// A number.
    Number,
    /// A string.
    String,
    /// An array.
    Array,
    /// An object.
    Object,
}

impl Kind {
    /// Returns the kind of this number, which is not that of a name or a bracket.
    fn of(number: u32) -> Kind {
        match number {
            exports::JSON_NULL => Kind::Null,
            exports::JSON_FALSE => Kind::False,
            exports::JSON_TRUE => Kind::True,
            exports::JSON_NUMBER => Kind::Number,
            exports::JSON_STRING => Kind::String,
            exports::JSON_ARRAY => Kind::Array,
            exports::JSON_OBJECT => Kind::Object,
            number => unknown(number),
        }
    }
}

/// A value of a JSON text: its type and its source text.
///
/// Elements and members are parsed on demand. So a walk with [`elements`](Value::elements) and
/// [`members`](Value::members) through all levels scans each byte once for each level that contains
/// it; [`steps`](Value::steps) scans each byte once. Values of one type with the same source text
/// are equal.
///
/// ```
/// use pergidau::json;
///
/// assert_eq!(json::parse("1", 0)?, json::parse(" 1", 2)?);
/// # Ok::<(), pergidau::Error>(())
/// ```
#[derive(Clone, Copy, Debug)]
pub struct Value<'i> {
    kind: Kind,
    text: &'i str,
    max_depth: usize,
}

impl PartialEq for Value<'_> {
    fn eq(&self, other: &Self) -> bool {
        self.kind == other.kind && self.text == other.text
    }
}

impl Eq for Value<'_> {}

impl<'i> Value<'i> {
    /// Returns the type of the value.
    pub fn kind(&self) -> Kind {
        self.kind
    }

    /// Its text, as it is written: a string with its quotes and escapes, an array or an object with
    /// its brackets.
    pub fn text(&self) -> &'i str {
        self.text
    }

    /// Returns the elements of an array, in order. The iterator is empty if the value is not an
    /// array.
    pub fn elements(&self) -> Elements<'i> {
        Elements(Inside::of(self, Kind::Array))
    }

    /// Returns the members of an object, in order, including repeated ones: the name as written
    /// between its quotes, and the value. The iterator is empty if the value is not an object.
    /// [`get`](Value::get) compares names with their escapes decoded.
    pub fn members(&self) -> Members<'i> {
        Members(Inside::of(self, Kind::Object))
    }

    /// Returns the steps of the value from its start to its end, through all levels. A value that
    /// contains no others is one step.
    pub fn steps(&self) -> Steps<'i> {
        Steps::of(self.text)
    }
}

/// Panics because of a number from another version of the library. Otherwise a valid text would seem to
/// end here.
#[cold]
fn unknown(number: u32) -> ! {
    panic!("unknown number {number} from the library")
}

/// The text after an opening bracket or after a value, and the depth limit for values in it.
#[derive(Clone, Copy, Debug)]
struct Inside<'i> {
    left: &'i str,
    max_depth: usize,
}

impl<'i> Inside<'i> {
    fn of(value: &Value<'i>, kind: Kind) -> Inside<'i> {
        let left = if value.kind == kind { &value.text[1..] } else { "" };
        Inside { left, max_depth: value.max_depth.saturating_sub(1) }
    }

    /// The next value. It is part of a text that was checked, so where there is none it is the end.
    fn next(&mut self) -> Option<Value<'i>> {
        let mut out = JsonItem::default();
        let bytes = self.left.as_bytes();
        // SAFETY: the pointers are those of live borrows, and the bytes are only read. The call takes up to
        // 57 KiB of stack at `MAX_DEPTH` (measured); where there is less, the thread's guard page ends
        // the program.
        let code = unsafe {
            exports::exported_json_next(bytes.as_ptr(), bytes.len(), self.max_depth, &mut out)
        };
        match code {
            exports::DONE => {}
            exports::END => return None,
            code => unknown(code),
        }
        let kind = Kind::of(out.kind);
        let (front, left) = self.left.split_at(out.span.offset + out.span.length);
        self.left = left;
        Some(Value { kind, text: &front[out.span.offset..], max_depth: self.max_depth })
    }
}

/// The elements of an array.
#[derive(Clone, Copy, Debug)]
pub struct Elements<'i>(Inside<'i>);

impl<'i> Iterator for Elements<'i> {
    type Item = Value<'i>;

    fn next(&mut self) -> Option<Value<'i>> {
        self.0.next()
    }
}

/// The members of an object.
#[derive(Clone, Copy, Debug)]
pub struct Members<'i>(Inside<'i>);

impl<'i> Iterator for Members<'i> {
    type Item = (&'i str, Value<'i>);

    fn next(&mut self) -> Option<Self::Item> {
        let name = self.0.next()?.text;
        Some((&name[1..name.len() - 1], self.0.next()?))
    }
}

/// Parses a JSON text (RFC 8259) whose arrays and objects are nested at most `max_depth` deep. The
/// whole text is checked first, as by [`check`].
///
/// ```
/// let text = " {\"a\": [1, null], \"b\": \"x\"}";
/// let value = pergidau::json::parse(text, 2)?;
/// let (name, list) = value.members().next().unwrap();
/// assert_eq!(name, "a");
/// assert_eq!(list.elements().map(|it| it.text()).collect::<Vec<_>>(), ["1", "null"]);
/// assert_eq!(value.members().last().unwrap().1.kind(), pergidau::json::Kind::String);
/// # Ok::<(), pergidau::Error>(())
/// ```
pub fn parse(text: &str, max_depth: usize) -> Result<Value<'_>, Error> {
    check(text.as_bytes(), max_depth)?;
    Inside { left: text, max_depth }.next().ok_or(Error::Invalid(None))
}

/// Checks that `text` is a JSON text (RFC 8259) whose arrays and objects are nested at most
/// `max_depth` deep. If it is not, a second pass finds the offset of the error. [`diagnose`] also
/// returns the input that is expected there.
///
/// ```
/// use pergidau::{json, Error};
///
/// assert_eq!(json::check(b" {\"a\": [1, 2.5e3, true]}\n", 2), Ok(()));
/// assert_eq!(json::check(b"[1, 2,]", 2), Err(Error::Invalid(Some(6))));
/// assert_eq!(json::check(b"[[1]]", 1), Err(Error::TooDeep(1)));
/// ```
pub fn check(text: &[u8], max_depth: usize) -> Result<(), Error> {
    // SAFETY: the pointer is that of a live borrow, and the bytes are only read. The call takes up to
    // 57 KiB of stack at `MAX_DEPTH` (measured); where there is less, the thread's guard page ends
    // the program.
    match unsafe { exports::exported_json_check(text.as_ptr(), text.len(), max_depth) } {
        exports::DONE => Ok(()),
        exports::INVALID | exports::INVALID_UTF8 => {
            diagnose(text, max_depth).map_err(|diagnostic| match diagnostic.error {
                Error::Incomplete => Error::Invalid(Some(text.len())),
                error => error,
            })
        }
        code => Err(Error::of(code, None, NOTHING)),
    }
}

/// Returns the longest JSON value (RFC 8259) at the start of `bytes`, and the rest. Whitespace
/// before the value is not skipped, and bytes of 128 and above are not checked.
///
/// ```
/// use pergidau::json;
///
/// assert_eq!(json::longest(b"[1, {}] , 2", 2), Ok((&b"[1, {}]"[..], &b" , 2"[..])));
/// ```
pub fn longest(bytes: &[u8], max_depth: usize) -> Result<(&[u8], &[u8]), Error> {
    let mut length = 0;
    // SAFETY: the pointers are those of live borrows, and the bytes are only read. The call takes up to
    // 57 KiB of stack at `MAX_DEPTH` (measured); where there is less, the thread's guard page ends
    // the program.
    let code = unsafe {
        exports::exported_json_value(bytes.as_ptr(), bytes.len(), max_depth, &mut length)
    };
    match code {
        exports::DONE => Ok(bytes.split_at(length)),
        code => Err(Error::of(code, None, NOTHING)),
    }
}
