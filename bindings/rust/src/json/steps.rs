//! A walk through a JSON text from its start to its end.
use super::{check, unknown, Kind, Value};
use crate::exports::{self, JsonItem};
use crate::Error;

/// A step of a walk through a JSON text.
#[derive(Clone, Copy, Debug, PartialEq, Eq)]
pub enum Step<'i> {
    /// A value that has no others in it: a word, a number or a string.
    Value(Value<'i>),
    /// The name of a member, as a string.
    Name(Value<'i>),
    /// The opening bracket of an array.
    BeginArray,
    /// The bracket after it.
    EndArray,
    /// The opening bracket of an object.
    BeginObject,
    /// The bracket after it.
    EndObject,
}

/// An iterator over the steps of a JSON text, from its start to its end and through all levels. It
/// scans each byte once, at any depth. Returned by [`steps`] and [`Value::steps`].
#[derive(Clone, Copy, Debug)]
pub struct Steps<'i> {
    left: &'i str,
}

impl<'i> Steps<'i> {
    /// Those of a text that was checked.
    pub(super) fn of(left: &'i str) -> Steps<'i> {
        Steps { left }
    }
}

impl<'i> Iterator for Steps<'i> {
    type Item = Step<'i>;

    fn next(&mut self) -> Option<Step<'i>> {
        let mut out = JsonItem::default();
        let bytes = self.left.as_bytes();
        // SAFETY: the pointers are those of live borrows, and the bytes are only read. The call takes up to
        // 1 KiB of stack (measured); where there is less, the thread's guard page ends the program.
        let code = unsafe { exports::exported_json_step(bytes.as_ptr(), bytes.len(), &mut out) };
        match code {
            exports::DONE => {}
            exports::END => return None,
            code => unknown(code),
        }
        let (front, left) = self.left.split_at(out.span.offset + out.span.length);
        let text = &front[out.span.offset..];
        let value = |kind| Value { kind, text, max_depth: 0 };
        let step = match out.kind {
            exports::JSON_NULL => Step::Value(value(Kind::Null)),
            exports::JSON_FALSE => Step::Value(value(Kind::False)),
            exports::JSON_TRUE => Step::Value(value(Kind::True)),
            exports::JSON_NUMBER => Step::Value(value(Kind::Number)),
            exports::JSON_STRING => Step::Value(value(Kind::String)),
            exports::JSON_NAME => Step::Name(value(Kind::String)),
            exports::JSON_BEGIN_ARRAY => Step::BeginArray,
            exports::JSON_END_ARRAY => Step::EndArray,
            exports::JSON_BEGIN_OBJECT => Step::BeginObject,
            exports::JSON_END_OBJECT => Step::EndObject,
            kind => unknown(kind),
        };
        self.left = left;
        Some(step)
    }
}

/// Returns the steps of a JSON text (RFC 8259) whose arrays and objects are nested at most
/// `max_depth` deep. The whole text is checked first, as by [`check`].
///
/// ```
/// use pergidau::json::{self, Step};
///
/// let steps = json::steps("{\"a\": [1, 2]}", 2)?;
/// let numbers = steps.filter(|it| matches!(it, Step::Value(it) if it.as_i64().is_some()));
/// assert_eq!(numbers.count(), 2);
/// # Ok::<(), pergidau::Error>(())
/// ```
pub fn steps(text: &str, max_depth: usize) -> Result<Steps<'_>, Error> {
    check(text.as_bytes(), max_depth)?;
    Ok(Steps::of(text))
}
