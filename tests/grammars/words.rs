//! The grammars of leaves, word by word: each prefix of the tokens is compared with the definition.
use crate::closures::{LENGTHS, said};
use crate::shown::Shown;
use crate::tree::{Bounds, Leaf};

/// Some tokens, split into the taken ones and the rest.
#[derive(Clone, Copy)]
pub(crate) struct Cut<'t> {
    tokens: &'t [u8],
    front: &'t [u8],
    rest: &'t [u8],
}

impl<'t> Cut<'t> {
    /// Splits the tokens after the first `taken` of them.
    pub(crate) fn at(tokens: &'t [u8], taken: usize) -> Cut<'t> {
        Cut {
            tokens,
            front: &tokens[..taken],
            rest: &tokens[taken..],
        }
    }

    /// Whether these are taken.
    fn takes(self, these: &[u8]) -> bool {
        self.front == these
    }

    /// Returns whether the longest prefix of members is taken, limited to the greatest number, and
    /// has the least number of them.
    fn is_longest(self, bounds: Bounds, is_member: impl Fn(u8) -> bool) -> bool {
        let is_full = bounds.greatest == Some(self.front.len());
        let is_ended = match self.rest.first() {
            Some(next) => !is_member(*next),
            None => true,
        };
        self.front.iter().all(|b| is_member(*b))
            && bounds.has(self.front.len())
            && (is_full || is_ended)
    }

    /// Returns whether the first occurrence of any of `sought` directly follows the taken tokens.
    fn is_before(self, sought: &[&[u8]]) -> bool {
        first_place(self.tokens, sought) == Some(self.front.len())
    }

    /// A line without its end is taken.
    fn is_line(self) -> bool {
        let is_line_of = match first_place(self.tokens, &[b"\r", b"\n"]) {
            Some(place) => place == self.front.len(),
            None => self.rest.is_empty(),
        };
        is_line_of && (!self.rest.starts_with(b"\r") || self.rest.starts_with(b"\r\n"))
    }

    /// Returns the number that the digits after a sign of `sign` bytes encode, if these digits are
    /// all that is taken. The first digit is '0' only if it is the only one. Unless the number is
    /// '0', no further digit follows.
    fn decimal(self, sign: usize) -> Option<i64> {
        let digits = &self.front[sign..];
        let are_digits = !digits.is_empty() && digits.iter().all(|b| b.is_ascii_digit());
        let is_zero = digits == b"0".as_slice();
        let is_ended = match self.rest.first() {
            Some(next) => !next.is_ascii_digit(),
            None => true,
        };
        if are_digits && (is_zero || (is_ended && digits[0] != b'0')) {
            number_of(digits)
        } else {
            None
        }
    }

    /// The same with '-' before it where the number is negative, and '+' or nothing where it is
    /// positive.
    fn signed(self) -> Option<i64> {
        match self.front.first() {
            Some(b'-') => self.decimal(1).filter(|n| *n > 0).map(|n| -n),
            Some(b'+') => self.decimal(1).filter(|n| *n > 0),
            _ => self.decimal(0),
        }
    }

    /// One or two hexadecimal digits are taken, and none follows them: their number.
    fn hexadecimal(self) -> Option<i64> {
        let is_ended = match self.rest.first() {
            Some(next) => !next.is_ascii_hexdigit(),
            None => true,
        };
        let are_digits = self.front.iter().all(|b| b.is_ascii_hexdigit());
        if !is_ended || !are_digits || self.front.is_empty() || self.front.len() > 2 {
            return None;
        }
        match std::str::from_utf8(self.front) {
            Ok(text) => i64::from_str_radix(text, 16).ok(),
            Err(_) => None,
        }
    }

    /// Two bytes are taken.
    fn two(self) -> Option<[u8; 2]> {
        if self.front.len() == 2 {
            Some([self.front[0], self.front[1]])
        } else {
            None
        }
    }

    /// Returns the tokens after a length, if the length and exactly as many tokens are taken.
    fn behind_length(self) -> Option<Shown> {
        let first = *self.front.first()?;
        let behind = &self.front[1..];
        let is_so = LENGTHS.contains(&first) && behind.len() == usize::from(said(first));
        if_so(is_so, Shown::slice(behind))
    }

    /// One token is taken, which is such: it is the output.
    fn one_token(self, is_such: impl Fn(u8) -> bool) -> Option<Shown> {
        let first = *self.front.first()?;
        if_so(self.front.len() == 1 && is_such(first), Shown::token(first))
    }
}

/// Returns the first offset at which one of the texts occurs.
pub(crate) fn first_place(tokens: &[u8], sought: &[&[u8]]) -> Option<usize> {
    for place in 0..tokens.len() {
        for text in sought {
            if tokens[place..].starts_with(*text) {
                return Some(place);
            }
        }
    }
    None
}

/// The number that decimal digits say, as std reads it.
fn number_of(digits: &[u8]) -> Option<i64> {
    match std::str::from_utf8(digits) {
        Ok(text) => text.parse::<i64>().ok(),
        Err(_) => None,
    }
}

fn if_so(holds: bool, output: Shown) -> Option<Shown> {
    if holds { Some(output) } else { None }
}

/// Returns the output of a leaf if it matches exactly the taken tokens, followed by the rest.
pub(crate) fn output_at(leaf: Leaf, cut: Cut) -> Option<Shown> {
    let is_nothing = cut.front.is_empty();
    match leaf {
        Leaf::Byte(byte) => if_so(cut.takes(&[byte]), Shown::token(byte)),
        Leaf::Any => cut.one_token(|_| true),
        Leaf::OneOf(set) => cut.one_token(|b| set.contains(&b)),
        Leaf::NoneOf(set) => cut.one_token(|b| !set.contains(&b)),
        Leaf::Empty => if_so(is_nothing, Shown::unit()),
        Leaf::Fail => None,
        Leaf::RestLen => if_so(is_nothing, Shown::count(cut.rest.len())),
        Leaf::DecUint => cut.decimal(0).filter(|n| *n <= 255).map(Shown::number),
        Leaf::DecInt => cut.signed().filter(|n| -128 <= *n && *n <= 127).map(Shown::number),
        Leaf::HexUint => cut.hexadecimal().map(Shown::number),
        Leaf::BeU16 => cut.two().map(|two| Shown::number(i64::from(u16::from_be_bytes(two)))),
        Leaf::LeI16 => cut.two().map(|two| Shown::number(i64::from(i16::from_le_bytes(two)))),
        Leaf::LengthTake => cut.behind_length(),
        _ => if_so(is_slice(leaf, cut), Shown::slice(cut.front)),
    }
}

/// Returns whether a leaf with a slice as its output matches exactly the taken tokens.
fn is_slice(leaf: Leaf, cut: Cut) -> bool {
    match leaf {
        Leaf::Text(text) => cut.takes(text.as_bytes()),
        Leaf::Caseless(text) => cut.front.eq_ignore_ascii_case(text.as_bytes()),
        Leaf::LineEnding => cut.takes(b"\n") || cut.takes(b"\r\n"),
        Leaf::Take(count) => cut.front.len() == count,
        Leaf::TakeWhile(bounds, set) => cut.is_longest(bounds, |b| set.contains(&b)),
        Leaf::TakeTill(bounds, set) => cut.is_longest(bounds, |b| !set.contains(&b)),
        Leaf::Alpha1 => cut.is_longest(Bounds::from(1), |b| b.is_ascii_alphabetic()),
        Leaf::Digit0 => cut.is_longest(Bounds::from(0), |b| b.is_ascii_digit()),
        Leaf::TakeUntil(bounds, text) => {
            cut.is_before(&[text.as_bytes()]) && bounds.has(cut.front.len())
        }
        Leaf::TillLineEnding => cut.is_line(),
        Leaf::Rest => cut.rest.is_empty(),
        Leaf::Eof => cut.tokens.is_empty(),
        _ => false,
    }
}
