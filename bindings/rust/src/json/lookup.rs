//! Values by the names of members and by JSON pointers.
use super::{unknown, Inside, Kind, Value};
use crate::exports::{self, JsonItem};

impl<'i> Value<'i> {
    /// Returns the value of the first member of this name. Names are compared with their escapes
    /// decoded. Returns `None` if no member has the name, or if the value is not an object.
    ///
    /// ```
    /// let value = pergidau::json::parse("{\"\\u0061\": 1, \"a\": 2}", 1)?;
    /// assert_eq!(value.get("a").unwrap().as_i64(), Some(1));
    /// assert_eq!(value.get("b"), None);
    /// # Ok::<(), pergidau::Error>(())
    /// ```
    pub fn get(&self, name: &str) -> Option<Value<'i>> {
        if self.kind != Kind::Object {
            return None;
        }
        let left = after_name(self.text, self.max_depth, name)?;
        Inside { left, max_depth: self.max_depth.saturating_sub(1) }.next()
    }

    /// Returns the element of an array at this index, from 0 on. Returns `None` if there is none, or
    /// if the value is not an array.
    ///
    /// ```
    /// let value = pergidau::json::parse("[1, 2]", 1)?;
    /// assert_eq!(value.at(1).unwrap().as_i64(), Some(2));
    /// assert_eq!(value.at(2), None);
    /// # Ok::<(), pergidau::Error>(())
    /// ```
    pub fn at(&self, index: usize) -> Option<Value<'i>> {
        self.elements().nth(index)
    }

    /// Returns the value that a JSON pointer (RFC 6901) identifies: the first, if names are
    /// repeated. Returns `None` if there is none, or if `pointer` is not a JSON pointer. `-`, the
    /// index after the last element, has no value.
    ///
    /// Nothing is allocated. Each byte of the text is scanned once, and once more for each token of the
    /// pointer whose value contains it.
    ///
    /// ```
    /// let value = pergidau::json::parse("{\"a/b\": [1, {\"m~n\": 2}]}", 3)?;
    /// assert_eq!(value.pointer("/a~1b/1/m~0n").unwrap().as_i64(), Some(2));
    /// assert_eq!(value.pointer(""), Some(value));
    /// assert_eq!(value.pointer("/a~1b/2"), None);
    /// # Ok::<(), pergidau::Error>(())
    /// ```
    pub fn pointer(&self, pointer: &str) -> Option<Value<'i>> {
        let mut out = JsonItem::default();
        // SAFETY: the pointers are those of live borrows, and the bytes are only read. The call takes up to
        // 57 KiB of stack at `MAX_DEPTH` (measured); where there is less, the thread's guard page ends
        // the program.
        let code = unsafe {
            exports::exported_json_pointer(
                self.text.as_ptr(),
                self.text.len(),
                self.max_depth,
                pointer.as_ptr(),
                pointer.len(),
                &mut out,
            )
        };
        match code {
            exports::DONE => {
                let text = &self.text[out.span.offset..][..out.span.length];
                Some(Value { kind: Kind::of(out.kind), text, max_depth: self.max_depth })
            }
            exports::END | exports::INVALID_POINTER => None,
            code => unknown(code),
        }
    }
}

/// Returns the text after the first member name that is `name` in an object that was checked.
fn after_name<'i>(object: &'i str, max_depth: usize, name: &str) -> Option<&'i str> {
    let mut offset = 0;
    // SAFETY: the pointers are those of live borrows, and the bytes are only read. The call takes up to
    // 57 KiB of stack at `MAX_DEPTH` (measured); where there is less, the thread's guard page ends
    // the program.
    let code = unsafe {
        exports::exported_json_member(
            object.as_ptr(),
            object.len(),
            max_depth,
            name.as_ptr(),
            name.len(),
            0,
            &mut offset,
        )
    };
    match code {
        exports::DONE => Some(&object[offset..]),
        exports::END => None,
        code => unknown(code),
    }
}
