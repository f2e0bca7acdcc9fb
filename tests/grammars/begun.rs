//! The tokens of partial input on which `Incomplete` is returned, as each parser specifies it
//! (`XDoes` of `parser_definitions`), evaluated by lists and by the grammars of the parts. This module uses no
//! parser.
use crate::closures::{LENGTHS, decided, said};
use crate::standing::{Ambiguous, Found, Standing, both, standing};
use crate::tree::{Bounds, Leaf, One, Three, Tree, Two};
use crate::words::first_place;

/// Whether `Incomplete` is returned.
pub(crate) type Asked = Result<bool, Ambiguous>;

/// Returns whether a parser of `tree` returns `Incomplete` on `tokens` as partial input. The
/// functions below use "incomplete" in this sense.
pub(crate) fn is_begun(tree: &Tree, tokens: &[u8]) -> Asked {
    match tree {
        Tree::Leaf(leaf) => Ok(leaf_begun(*leaf, tokens)),
        Tree::One(kind, _, part) => one_begun(*kind, part, tokens),
        Tree::Two(kind, _, first, second) => two_begun(*kind, (first, second), tokens),
        Tree::Three(kind, first, second, third) => {
            three_begun(*kind, (first, second, third), tokens)
        }
    }
}

/// Nothing but members is there, fewer than the greatest number.
fn is_open(bounds: Bounds, tokens: &[u8], is_member: impl Fn(u8) -> bool) -> bool {
    tokens.iter().all(|b| is_member(*b)) && is_below(bounds.greatest, tokens.len())
}

/// Whether a number is below the greatest, if there is one.
fn is_below(greatest: Option<usize>, count: usize) -> bool {
    match greatest {
        Some(greatest) => count < greatest,
        None => true,
    }
}

/// No tokens; or a digit from 1 to 9 followed only by digits.
fn digits_begun(tokens: &[u8]) -> bool {
    match tokens.first() {
        Some(first) => *first != b'0' && tokens.iter().all(|b| b.is_ascii_digit()),
        None => true,
    }
}

/// A text is longer than the tokens, and begins with them.
fn is_short(text: &str, tokens: &[u8]) -> bool {
    tokens.len() < text.len() && text.as_bytes().starts_with(tokens)
}

/// Like `is_short`, ignoring case.
fn is_short_caseless(text: &str, tokens: &[u8]) -> bool {
    let bytes = text.as_bytes();
    tokens.len() < bytes.len() && bytes[..tokens.len()].eq_ignore_ascii_case(tokens)
}

/// The literal does not occur; or it occurs after too few tokens, and the range has an upper bound.
/// A range from two or more has the upper bound of its type.
fn before_begun(bounds: Bounds, text: &str, tokens: &[u8]) -> bool {
    let has_greatest = bounds.greatest.is_some() || bounds.least > 1;
    match first_place(tokens, &[text.as_bytes()]) {
        Some(place) => place < bounds.least && has_greatest,
        None => true,
    }
}

/// No line ending occurs; or the first one is a carriage return, and the last token.
fn line_begun(tokens: &[u8]) -> bool {
    match first_place(tokens, &[b"\r", b"\n"]) {
        Some(place) => &tokens[place..] == b"\r".as_slice(),
        None => true,
    }
}

/// The length is missing; or `behind` is true for the length and the tokens after it.
fn length_begun(tokens: &[u8], behind: impl Fn(usize, &[u8]) -> Asked) -> Asked {
    let Some(first) = tokens.first() else {
        return Ok(true);
    };
    if !LENGTHS.contains(first) {
        return Ok(false);
    }
    behind(usize::from(said(*first)), &tokens[1..])
}

fn leaf_begun(leaf: Leaf, tokens: &[u8]) -> bool {
    match leaf {
        Leaf::Byte(_) | Leaf::Any | Leaf::OneOf(_) | Leaf::NoneOf(_) => tokens.is_empty(),
        Leaf::Text(text) => is_short(text, tokens),
        Leaf::Caseless(text) => is_short_caseless(text, tokens),
        Leaf::LineEnding => tokens.is_empty() || tokens == b"\r".as_slice(),
        Leaf::Take(count) => tokens.len() < count,
        Leaf::TakeWhile(bounds, set) => is_open(bounds, tokens, |b| set.contains(&b)),
        Leaf::TakeTill(bounds, set) => is_open(bounds, tokens, |b| !set.contains(&b)),
        Leaf::TakeUntil(bounds, text) => before_begun(bounds, text, tokens),
        Leaf::Alpha1 => is_open(Bounds::from(1), tokens, |b| b.is_ascii_alphabetic()),
        Leaf::Digit0 => is_open(Bounds::from(0), tokens, |b| b.is_ascii_digit()),
        Leaf::TillLineEnding => line_begun(tokens),
        Leaf::DecUint => digits_begun(tokens),
        Leaf::DecInt => match tokens.first() {
            Some(b'+') | Some(b'-') => digits_begun(&tokens[1..]),
            _ => digits_begun(tokens),
        },
        Leaf::HexUint => tokens.iter().all(|b| b.is_ascii_hexdigit()) && tokens.len() <= 2,
        Leaf::BeU16 | Leaf::LeI16 => tokens.len() < 2,
        Leaf::LengthTake => match tokens.first() {
            Some(first) => {
                LENGTHS.contains(first) && tokens.len() <= usize::from(said(*first))
            }
            None => true,
        },
        Leaf::Rest | Leaf::RestLen | Leaf::Eof | Leaf::Empty | Leaf::Fail => false,
    }
}

/// An item is incomplete after some items that match, and fewer than `greatest` items precede it.
/// `before` is the number of items before `tokens`.
fn among(
    before: usize,
    greatest: Option<usize>,
    tokens: &[u8],
    begun: impl Fn(&[u8]) -> Asked,
    stands: impl Fn(&[u8]) -> Found<Standing>,
) -> Asked {
    let (mut count, mut rest) = (before, tokens);
    loop {
        if !is_below(greatest, count) {
            return Ok(false);
        }
        if begun(rest)? {
            return Ok(true);
        }
        match stands(rest)? {
            Some(one) => {
                count += 1;
                rest = &rest[one.taken..];
            }
            None => return Ok(false),
        }
    }
}

fn one_begun(kind: One, part: &Tree, tokens: &[u8]) -> Asked {
    match kind {
        One::Cond(false) => Ok(false),
        One::Repeat(_, bounds) | One::Fold(bounds) => items_begun(part, bounds.greatest, tokens),
        One::LengthAndThen => length_begun(tokens, |n, behind| Ok(behind.len() < n)),
        One::LengthRepeat => length_begun(tokens, |n, behind| items_begun(part, Some(n), behind)),
        One::FlatMap => {
            if is_begun(part, tokens)? {
                return Ok(true);
            }
            match standing(part, tokens)? {
                Some(found) => Ok(tokens.len() - found.taken < decided(found.output)),
                None => Ok(false),
            }
        }
        _ => is_begun(part, tokens),
    }
}

/// An item is incomplete, and fewer than `greatest` items precede it.
fn items_begun(item: &Tree, greatest: Option<usize>, tokens: &[u8]) -> Asked {
    among(0, greatest, tokens, |rest| is_begun(item, rest), |rest| standing(item, rest))
}

/// `first` is incomplete; or it matches, and `second` is incomplete after it.
fn behind(first: &Tree, second: &Tree, tokens: &[u8]) -> Asked {
    if is_begun(first, tokens)? {
        return Ok(true);
    }
    match standing(first, tokens)? {
        Some(found) => is_begun(second, &tokens[found.taken..]),
        None => Ok(false),
    }
}

/// `first` is incomplete; or it does not match, and `second` is incomplete.
fn either(first: &Tree, second: &Tree, tokens: &[u8]) -> Asked {
    let begun = is_begun(first, tokens)?;
    Ok(begun || (standing(first, tokens)?.is_none() && is_begun(second, tokens)?))
}

/// The first element is incomplete, and the greatest number is not 0; or it matches, and after
/// fewer than the greatest number of elements the next pair of a separator and an element is
/// incomplete.
fn parted_begun((element, separator): (&Tree, &Tree), bounds: Bounds, tokens: &[u8]) -> Asked {
    if bounds.greatest == Some(0) {
        return Ok(false);
    }
    if is_begun(element, tokens)? {
        return Ok(true);
    }
    match standing(element, tokens)? {
        Some(first) => among(
            1,
            bounds.greatest,
            &tokens[first.taken..],
            |rest| behind(separator, element, rest),
            |rest| both(separator, element, rest, |_, output| output),
        ),
        None => Ok(false),
    }
}

/// An item is incomplete, and fewer than `bounds.least` items precede it; or, after these, the
/// terminator has not matched before, and it is incomplete, or an item is if one more is allowed.
fn till_begun((item, till): (&Tree, &Tree), bounds: Bounds, tokens: &[u8]) -> Asked {
    let (mut count, mut rest) = (0, tokens);
    loop {
        if count >= bounds.least {
            if is_begun(till, rest)? {
                return Ok(true);
            }
            if standing(till, rest)?.is_some() || !is_below(bounds.greatest, count) {
                return Ok(false);
            }
        }
        if is_begun(item, rest)? {
            return Ok(true);
        }
        match standing(item, rest)? {
            Some(one) => {
                count += 1;
                rest = &rest[one.taken..];
            }
            None => return Ok(false),
        }
    }
}

fn two_begun(kind: Two, (first, second): (&Tree, &Tree), tokens: &[u8]) -> Asked {
    match kind {
        Two::Sequence | Two::Preceded | Two::Terminated => behind(first, second, tokens),
        Two::Choice => either(first, second, tokens),
        Two::AndThen => is_begun(first, tokens),
        Two::Separated(_, bounds) => parted_begun((first, second), bounds, tokens),
        Two::RepeatTill(bounds) => till_begun((first, second), bounds, tokens),
    }
}

fn three_begun(
    kind: Three,
    (first, second, third): (&Tree, &Tree, &Tree),
    tokens: &[u8],
) -> Asked {
    if is_begun(first, tokens)? {
        return Ok(true);
    }
    match (kind, standing(first, tokens)?) {
        (Three::Choice, None) => either(second, third, tokens),
        (Three::Choice, Some(_)) | (_, None) => Ok(false),
        (_, Some(found)) => behind(second, third, &tokens[found.taken..]),
    }
}
