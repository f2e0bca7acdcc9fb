//! Outputs as numbers: what of them their tokens tell.

/// An output: how many bytes it is written in, and a number of 64 bits made of these bytes.
#[derive(Clone, Copy, Debug, PartialEq)]
pub(crate) struct Shown {
    len: usize,
    digest: u64,
}

impl Shown {
    /// An empty output, with a mark for its kind.
    fn begun(mark: u8) -> Shown {
        let mut shown = Shown {
            len: 0,
            digest: 0xCBF2_9CE4_8422_2325,
        };
        shown.put(u64::from(mark));
        shown
    }

    /// Nothing.
    pub(crate) fn unit() -> Shown {
        Shown::begun(b'(')
    }

    /// A token.
    pub(crate) fn token(token: u8) -> Shown {
        let mut shown = Shown::begun(b'\'');
        shown.put(u64::from(token));
        shown
    }

    /// Some tokens.
    pub(crate) fn slice(tokens: &[u8]) -> Shown {
        let mut shown = Shown::begun(b'"');
        for token in tokens {
            shown.put(u64::from(*token));
        }
        shown
    }

    /// A number.
    pub(crate) fn number(number: i64) -> Shown {
        let mut shown = Shown::begun(b'#');
        shown.put(number.cast_unsigned());
        shown
    }

    /// How many.
    pub(crate) fn count(count: usize) -> Shown {
        Shown::number(i64::try_from(count).unwrap_or(-1))
    }

    /// A sequence of outputs, after a mark for its kind.
    pub(crate) fn all(mark: u8, parts: &[Shown]) -> Shown {
        let mut shown = Shown::begun(mark);
        for part in parts {
            shown = shown.and(*part);
        }
        shown
    }

    /// Appends an output.
    pub(crate) fn and(self, part: Shown) -> Shown {
        let mut shown = self;
        shown.put(part.digest);
        shown.len += part.len;
        shown
    }

    /// A list.
    pub(crate) fn list(items: &[Shown]) -> Shown {
        Shown::all(b'L', items)
    }

    /// One or none.
    pub(crate) fn option(part: Option<Shown>) -> Shown {
        match part {
            Some(part) => Shown::all(b'?', &[part]),
            None => Shown::all(b'-', &[]),
        }
    }

    /// How many bytes it is written in.
    pub(crate) fn len(&self) -> usize {
        self.len
    }

    /// The digest of Fowler, Noll and Vo, by eight bytes.
    fn put(&mut self, number: u64) {
        self.len += 1;
        self.digest = (self.digest ^ number).wrapping_mul(0x0000_0100_0000_01B3).rotate_left(23);
    }
}
