//! Grammars, evaluated by trying every value that their definitions quantify over: the output that
//! matches at the start of some tokens, and the rest.
use crate::closures::{LENGTHS, decided, is_accepted, made, made_if_accepted, said};
use crate::rows::{Row, many, parted, times, up_to};
use crate::shown::Shown;
use crate::tree::{Into, One, Three, Tree, Two};
use crate::words::{Cut, output_at};

/// An output that matches at the start of some tokens, and the number of its tokens.
#[derive(Clone, Copy, Debug, PartialEq)]
pub(crate) struct Standing {
    pub(crate) output: Shown,
    pub(crate) taken: usize,
}

/// The error that two outputs match at the start of the same tokens.
#[derive(Clone, Copy, Debug)]
pub(crate) struct Ambiguous;

/// The only match, if there is one.
pub(crate) type Found<T> = Result<Option<T>, Ambiguous>;

/// The one of two that is there.
pub(crate) fn one_alone<T: Copy>(first: Option<T>, second: Option<T>) -> Found<T> {
    match (first, second) {
        (None, found) | (found, None) => Ok(found),
        (Some(_), Some(_)) => Err(Ambiguous),
    }
}

fn stands(output: Shown, taken: usize) -> Found<Standing> {
    Ok(Some(Standing { output, taken }))
}

/// Converts a row, if there is one, to a match.
fn made_of(found: Option<Row>, output: impl Fn(Row) -> Shown) -> Found<Standing> {
    match found {
        Some(row) => stands(output(row), row.taken),
        None => Ok(None),
    }
}

/// Returns the match of a composition at the start of `tokens`.
pub(crate) fn standing(tree: &Tree, tokens: &[u8]) -> Found<Standing> {
    match tree {
        Tree::Leaf(leaf) => {
            let mut one = None;
            for taken in 0..tokens.len() + 1 {
                if let Some(output) = output_at(*leaf, Cut::at(tokens, taken)) {
                    one = one_alone(one, Some(Standing { output, taken }))?;
                }
            }
            Ok(one)
        }
        Tree::One(kind, _, part) => of_one(*kind, part, tokens),
        Tree::Two(kind, _, first, second) => of_two(*kind, (first, second), tokens),
        Tree::Three(kind, first, second, third) => {
            of_three(*kind, (first, second, third), tokens)
        }
    }
}

/// Matches `first`, then `second`.
pub(crate) fn both(
    first: &Tree,
    second: &Tree,
    tokens: &[u8],
    output: impl Fn(Shown, Shown) -> Shown,
) -> Found<Standing> {
    let Some(p) = standing(first, tokens)? else {
        return Ok(None);
    };
    let Some(q) = standing(second, &tokens[p.taken..])? else {
        return Ok(None);
    };
    stands(output(p.output, q.output), p.taken + q.taken)
}

/// Matches three trees in sequence.
fn each_of_three(
    (first, second, third): (&Tree, &Tree, &Tree),
    tokens: &[u8],
    output: impl Fn(Shown, Shown, Shown) -> Shown,
) -> Found<Standing> {
    let Some(p) = standing(first, tokens)? else {
        return Ok(None);
    };
    let Some(q) = standing(second, &tokens[p.taken..])? else {
        return Ok(None);
    };
    let before = p.taken + q.taken;
    let Some(r) = standing(third, &tokens[before..])? else {
        return Ok(None);
    };
    stands(output(p.output, q.output, r.output), before + r.taken)
}

/// Matches `first`; if it does not match, matches `second`.
fn either(first: &Tree, second: &Tree, tokens: &[u8]) -> Found<Standing> {
    match standing(first, tokens)? {
        Some(found) => Ok(Some(found)),
        None => standing(second, tokens),
    }
}

/// Matches a length, then `behind` for that number.
fn sized(
    tokens: &[u8],
    behind: impl Fn(usize, &[u8]) -> Found<Standing>,
) -> Found<Standing> {
    let Some(first) = tokens.first() else {
        return Ok(None);
    };
    if !LENGTHS.contains(first) {
        return Ok(None);
    }
    match behind(usize::from(said(*first)), &tokens[1..])? {
        Some(found) => stands(found.output, 1 + found.taken),
        None => Ok(None),
    }
}

/// Matches `tree` within the first `count` tokens, and takes all of these.
fn inside(tree: &Tree, count: usize, tokens: &[u8]) -> Found<Standing> {
    if tokens.len() < count {
        return Ok(None);
    }
    match standing(tree, &tokens[..count])? {
        Some(found) => stands(found.output, count),
        None => Ok(None),
    }
}

/// The grammar of a combinator of one part.
fn of_one(kind: One, part: &Tree, tokens: &[u8]) -> Found<Standing> {
    match kind {
        One::Cond(false) => return stands(Shown::option(None), 0),
        One::Repeat(into, bounds) => {
            return made_of(many(part, bounds, tokens)?, |row| row.held(into));
        }
        One::Fold(bounds) => return made_of(many(part, bounds, tokens)?, |row| row.folded),
        One::LengthAndThen => return sized(tokens, |n, behind| inside(part, n, behind)),
        One::LengthRepeat => {
            return sized(tokens, |n, behind| {
                made_of(times(part, n, behind)?, |row| row.held(Into::List))
            });
        }
        _ => {}
    }
    let Some(found) = standing(part, tokens)? else {
        return match kind {
            One::Opt => stands(Shown::option(None), 0),
            One::Not => stands(Shown::unit(), 0),
            _ => Ok(None),
        };
    };
    let (output, taken) = (found.output, found.taken);
    match kind {
        One::Not => Ok(None),
        One::Opt | One::Cond(_) => stands(Shown::option(Some(output)), taken),
        One::Peek => stands(output, 0),
        One::FlatMap => {
            let (behind, count) = (&tokens[taken..], decided(output));
            if behind.len() < count {
                return Ok(None);
            }
            stands(Shown::slice(&behind[..count]), taken + count)
        }
        _ => match adapted(kind, output, &tokens[..taken]) {
            Some(output) => stands(output, taken),
            None => Ok(None),
        },
    }
}

/// Returns the output of an adapter for an output that matched these tokens, if the adapter accepts
/// it.
fn adapted(kind: One, output: Shown, tokens: &[u8]) -> Option<Shown> {
    match kind {
        One::Take => Some(Shown::slice(tokens)),
        One::WithTaken => Some(Shown::all(b't', &[output, Shown::slice(tokens)])),
        One::Map => Some(made(output)),
        One::Value => Some(Shown::count(7)),
        One::Void => Some(Shown::unit()),
        One::VerifyMap => made_if_accepted(output),
        _ => {
            if is_accepted(&output) {
                Some(output)
            } else {
                None
            }
        }
    }
}

/// The grammar of a combinator of two parts.
fn of_two(kind: Two, (first, second): (&Tree, &Tree), tokens: &[u8]) -> Found<Standing> {
    match kind {
        Two::Sequence => both(first, second, tokens, |p, q| Shown::all(b'2', &[p, q])),
        Two::Preceded => both(first, second, tokens, |_, q| q),
        Two::Terminated => both(first, second, tokens, |p, _| p),
        Two::Choice => either(first, second, tokens),
        Two::AndThen => match standing(first, tokens)? {
            Some(outer) => inside(second, outer.taken, tokens),
            None => Ok(None),
        },
        Two::Separated(into, bounds) => {
            made_of(parted((first, second), bounds, tokens)?, |row| row.held(into))
        }
        Two::RepeatTill(bounds) => {
            let Some(row) = up_to((first, second), bounds, tokens)? else {
                return Ok(None);
            };
            let Some(end) = standing(second, &tokens[row.taken..])? else {
                return Ok(None);
            };
            let output = Shown::all(b'2', &[row.held(Into::List), end.output]);
            stands(output, row.taken + end.taken)
        }
    }
}

/// The grammar of a combinator of three parts.
fn of_three(kind: Three, parts: (&Tree, &Tree, &Tree), tokens: &[u8]) -> Found<Standing> {
    match kind {
        Three::Sequence => each_of_three(parts, tokens, |p, q, r| Shown::all(b'3', &[p, q, r])),
        Three::Delimited => each_of_three(parts, tokens, |_, q, _| q),
        Three::SeparatedPair => each_of_three(parts, tokens, |p, _, r| Shown::all(b'2', &[p, r])),
        Three::Choice => match standing(parts.0, tokens)? {
            Some(found) => Ok(Some(found)),
            None => either(parts.1, parts.2, tokens),
        },
    }
}
