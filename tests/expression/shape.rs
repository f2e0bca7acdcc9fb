//! Trees as they are written: each operator with its operands in brackets.
/// The most bytes of a written tree.
const ROOM: usize = 48;

/// A written tree.
#[derive(Clone, Copy, Debug, PartialEq)]
pub(crate) struct Shape {
    len: usize,
    bytes: [u8; ROOM],
}

impl Shape {
    /// A tree that is written so.
    pub(crate) fn of(text: &str) -> Shape {
        let mut shape = Shape {
            len: 0,
            bytes: [0; ROOM],
        };
        for byte in text.as_bytes() {
            shape.put(*byte);
        }
        shape
    }

    /// An operand that is written as one character.
    pub(crate) fn leaf(symbol: char) -> Shape {
        let mut shape = Shape::of("");
        shape.put_char(symbol);
        shape
    }

    /// A prefix operator with its operand.
    pub(crate) fn before(symbol: char, operand: &Shape) -> Shape {
        let mut shape = Shape::of("(");
        shape.put_char(symbol);
        shape.put_all(operand);
        shape.put(b')');
        shape
    }

    /// A postfix operator with its operand.
    pub(crate) fn behind(symbol: char, operand: &Shape) -> Shape {
        let mut shape = Shape::of("(");
        shape.put_all(operand);
        shape.put_char(symbol);
        shape.put(b')');
        shape
    }

    /// An infix operator with its operands.
    pub(crate) fn between(symbol: char, left: &Shape, right: &Shape) -> Shape {
        let mut shape = Shape::of("(");
        shape.put_all(left);
        shape.put_char(symbol);
        shape.put_all(right);
        shape.put(b')');
        shape
    }

    fn put(&mut self, byte: u8) {
        if self.len < ROOM {
            self.bytes[self.len] = byte;
            self.len += 1;
        }
    }

    fn put_char(&mut self, symbol: char) {
        self.put(u8::try_from(symbol).unwrap_or(b'?'));
    }

    fn put_all(&mut self, other: &Shape) {
        for i in 0..other.len {
            self.put(other.bytes[i]);
        }
    }
}
