//! Compositions as parsers: at each node the library's own combinator runs, over references to the
//! parts.
ghost use Rattle.parser_definitions.specs.Terms.{AnyOutcome, meets_no_terms, no_terms};
ghost use Rattle.std.specs.Prelude.{⊤};

use crate::closures::{LENGTHS, decided, folded, is_accepted, made, made_if_accepted, said};
use crate::leaves::{Bytes, range_of, run_leaf};
use crate::shown::Shown;
use crate::tree::{Bounds, Into, One, Three, Tree, Two};
use std::alloc::Global;
use test_support::rows::Modal;
use winnow_binary::binary::{length_and_then, length_repeat};
use winnow_comb::combinator::{
    alt, cond, delimited, not, opt, peek, preceded, separated_pair, terminated,
};
use winnow_core::parser::Parser;
use winnow_repeat::combinator::impls::Repeat;
use winnow_repeat::combinator::{repeat, repeat_till};
use winnow_separated::combinator::separated;
use winnow_token::token::{one_of, take};

// The ghost members that the trait requires of each parser.
impl<'i, I: Bytes<'i>> Parser<I, Shown, Modal> for Tree {
    ghost State = { ⊤ };

    ghost state = { λ _. tt };

    ghost does = { AnyOutcome };

    ghost terms = { no_terms };

    ghost lawful = { meets_no_terms };

    fn parse_next(&mut self, input: &mut I) -> Result<Shown, Modal> {
        match self {
            Tree::Leaf(leaf) => run_leaf(*leaf, input),
            Tree::One(kind, alloc, part) => run_one(*kind, *alloc, part, input),
            Tree::Two(kind, alloc, first, second) => {
                run_two(*kind, *alloc, (first, second), input)
            }
            Tree::Three(kind, first, second, third) => {
                run_three(*kind, (first, second, third), input)
            }
        }
    }
}

fn pair((first, second): (Shown, Shown)) -> Shown {
    Shown::all(b'2', &[first, second])
}

fn triple((first, second, third): (Shown, Shown, Shown)) -> Shown {
    Shown::all(b'3', &[first, second, third])
}

fn list(items: Vec<Shown>) -> Shown {
    Shown::list(items.as_slice())
}

fn with_slice((output, slice): (Shown, &[u8])) -> Shown {
    Shown::all(b't', &[output, Shown::slice(slice)])
}

fn unit(nothing: ()) -> Shown {
    Shown::unit()
}

/// Runs a combinator of one parser.
fn run_one<'i, I: Bytes<'i>>(
    kind: One,
    alloc: Global,
    part: &mut Tree,
    input: &mut I,
) -> Result<Shown, Modal> {
    match kind {
        One::Opt => opt(part.by_ref()).map(Shown::option).parse_next(input),
        One::Cond(holds) => cond(holds, part.by_ref()).map(Shown::option).parse_next(input),
        One::Peek => peek(part.by_ref()).parse_next(input),
        One::Not => not(part.by_ref()).map(unit).parse_next(input),
        One::Take => part.by_ref().take().map(Shown::slice).parse_next(input),
        One::WithTaken => part.by_ref().with_taken().map(with_slice).parse_next(input),
        One::Map => part.by_ref().map(made).parse_next(input),
        One::Value => part.by_ref().value(7usize).map(Shown::count).parse_next(input),
        One::Void => part.by_ref().void().map(unit).parse_next(input),
        One::Verify => part.by_ref().verify(is_accepted).parse_next(input),
        One::VerifyMap => part.by_ref().verify_map(made_if_accepted).parse_next(input),
        One::FlatMap => {
            let behind = |output: Shown| take(decided(output));
            part.by_ref().flat_map(behind).map(Shown::slice).parse_next(input)
        }
        One::Repeat(into, bounds) => run_repeat(into, bounds, alloc, part, input),
        One::Fold(bounds) => {
            let items: Repeat<_, I, Shown, (), Modal, Global> = repeat(
                alloc,
                range_of(bounds),
                part.by_ref(),
            );
            items.fold(Shown::unit, folded).parse_next(input)
        }
        One::LengthAndThen => {
            length_and_then(one_of(LENGTHS).map(said), part.by_ref()).parse_next(input)
        }
        One::LengthRepeat => {
            length_repeat(alloc, one_of(LENGTHS).map(said), part.by_ref())
                .map(list)
                .parse_next(input)
        }
    }
}

/// One run of a repetition.
fn run_repeat<'i, I: Bytes<'i>>(
    into: Into,
    bounds: Bounds,
    alloc: Global,
    part: &mut Tree,
    input: &mut I,
) -> Result<Shown, Modal> {
    let range = range_of(bounds);
    match into {
        Into::List => repeat(alloc, range, part.by_ref()).map(list).parse_next(input),
        Into::Count => repeat(alloc, range, part.by_ref()).map(Shown::count).parse_next(input),
        Into::Nothing => repeat(alloc, range, part.by_ref()).map(unit).parse_next(input),
    }
}

/// Runs a combinator of two parsers.
fn run_two<'i, I: Bytes<'i>>(
    kind: Two,
    alloc: Global,
    (first, second): (&mut Tree, &mut Tree),
    input: &mut I,
) -> Result<Shown, Modal> {
    let (p, q) = (first.by_ref(), second.by_ref());
    match kind {
        Two::Sequence => (p, q).map(pair).parse_next(input),
        Two::Preceded => preceded(p, q).parse_next(input),
        Two::Terminated => terminated(p, q).parse_next(input),
        Two::Choice => alt((p, q)).parse_next(input),
        Two::AndThen => p.take().and_then(second.by_ref()).parse_next(input),
        Two::Separated(into, bounds) => match into {
            Into::List => separated(alloc, range_of(bounds), p, q).map(list).parse_next(input),
            Into::Count => {
                separated(alloc, range_of(bounds), p, q).map(Shown::count).parse_next(input)
            }
            Into::Nothing => separated(alloc, range_of(bounds), p, q).map(unit).parse_next(input),
        },
        Two::RepeatTill(bounds) => {
            repeat_till(alloc, range_of(bounds), p, q)
                .map(|(items, end): (Vec<Shown>, Shown)| pair((list(items), end)))
                .parse_next(input)
        }
    }
}

/// Runs a combinator of three parsers.
fn run_three<'i, I: Bytes<'i>>(
    kind: Three,
    (first, second, third): (&mut Tree, &mut Tree, &mut Tree),
    input: &mut I,
) -> Result<Shown, Modal> {
    let (p, q, r) = (first.by_ref(), second.by_ref(), third.by_ref());
    match kind {
        Three::Sequence => (p, q, r).map(triple).parse_next(input),
        Three::Delimited => delimited(p, q, r).parse_next(input),
        Three::SeparatedPair => separated_pair(p, q, r).map(pair).parse_next(input),
        Three::Choice => alt((p, q, r)).parse_next(input),
    }
}
