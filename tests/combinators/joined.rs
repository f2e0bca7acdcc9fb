//! What choices and repetitions make of the errors of their parts.
ghost use Rattle.stream_errors.specs.Form.{marked_kind, plain};
ghost use Rattle.stream_errors.specs.Form.{marked_kind-cases};

use std::process::Abort;
use stream_errors::has_kind::HasKind;
use stream_errors::parser_error::ParserError;
use streams::needed::Needed;
use streams::stream::Stream;
use winnow_comb::combinator::alt;
use winnow_core::parser::Parser;
use winnow_repeat::combinator::{fill, repeat, repeat_till};
use winnow_separated::combinator::separated;

/// An error that counts the calls that made it: how many errors were joined, and how many positions
/// were added.
#[derive(Clone, Copy, Debug, PartialEq, Eq)]
struct Calls {
    joins: u32,
    positions: u32,
    is_memory: bool,
}

/// The error of a branch, with these calls.
fn calls(joins: u32, positions: u32) -> Calls {
    Calls {
        joins,
        positions,
        is_memory: false,
    }
}

impl HasKind for Calls {
    ghost kind = { λ e. marked_kind e.is_memory };

    ghost form = { plain };
}

impl<I: Stream> ParserError<I> for Calls {
    type Inner = Calls;

    ghost inner_kind = { λ e. marked_kind e.is_memory };

    ghost or_grows = { λ _ _. ⊥ };

    ghost append_grows = { λ _. ⊥ };

    fn from_input(_input: &I) -> Calls {
        calls(0, 0)
    }

    fn assert(_input: &I, _message: &'static str) -> Calls {
        calls(0, 0)
    }

    fn incomplete(_input: &I, _needed: Needed) -> Calls {
        calls(0, 0)
    }

    fn no_memory(_input: &I) -> Calls {
        Calls {
            joins: 0,
            positions: 0,
            is_memory: true,
        }
    }

    fn or(self, other: Calls) -> Calls {
        Calls {
            joins: self.joins.wrapping_add(other.joins).wrapping_add(1),
            positions: self.positions.wrapping_add(other.positions),
            is_memory: self.is_memory || other.is_memory,
        }
    }

    fn append(self, _input: &I, _token_start: &I::Checkpoint) -> Calls {
        Calls {
            joins: self.joins,
            positions: self.positions.wrapping_add(1),
            is_memory: self.is_memory,
        }
    }

    fn is_backtrack(&self) -> bool {
        !self.is_memory
    }

    fn is_incomplete(&self) -> bool {
        false
    }

    fn is_memory(&self) -> bool {
        self.is_memory
    }

    fn needed(&self) -> Option<Needed> {
        None
    }

    fn into_inner(self) -> Result<Calls, Calls> {
        Ok(self)
    }

    ghost plain_kinds = { λ _ e. marked_kind-cases e.is_memory };
}

/// Checks that a parser fails with these calls.
fn fails<'i, O: Drop, P: Parser<&'i str, O, Calls> + Drop>(
    rt: &impl Abort,
    mut parser: P,
    text: &'i str,
    want: Calls,
) {
    let mut input = text;
    match parser.parse_next(&mut input) {
        Ok(_) => assert!(rt; false, "{text} is accepted"),
        Err(error) => assert_eq!(rt; error, want, "{text}"),
    }
}

#[test]
fn errors_of_branches_are_joined(rt: HostRuntime) {
    fails(&rt, alt(('a',)), "x", calls(0, 0));
    fails(&rt, alt(('a', 'b')), "x", calls(1, 1));
    fails(&rt, alt(('a', 'b', 'c')), "x", calls(2, 1));
    fails(&rt, alt(('a', 'b', 'c', 'd', 'e', 'f', 'g', 'h', 'i')), "x", calls(8, 1));
    fails(&rt, alt(['a', 'b', 'c']), "x", calls(2, 1));
    fails(&rt, alt(['a']), "x", calls(0, 1));
    fails(&rt, alt(('a', alt(('b', 'c')))), "x", calls(2, 2));
}

#[test]
fn errors_of_needed_items_get_their_position(rt: HostRuntime) {
    let alloc = rt.alloc();
    fails(&rt, repeat::<_, _, _, (), _, _, _>(alloc, 1.., 'a'), "x", calls(0, 1));
    fails(&rt, repeat::<_, _, _, (), _, _, _>(alloc, 2.., 'a'), "ax", calls(0, 1));
    fails(&rt, repeat::<_, _, _, (), _, _, _>(alloc, 2, 'a'), "ax", calls(0, 1));
    let mut sum = repeat(alloc, 1.., 'a').fold(|| 0_u32, |n: u32, _: char| n);
    fails(&rt, sum.by_ref(), "x", calls(0, 1));
    let mut buffer = ['-', '-'];
    fails(&rt, fill('a', &mut buffer), "ax", calls(0, 1));
    let lines = repeat_till::<_, _, _, _, _, (), _, _, _>(alloc, 0.., 'a', ';');
    fails(&rt, lines, "ax", calls(0, 1));
    fails(&rt, separated::<_, _, _, _, _, (), _, _, _>(alloc, 2, 'a', ','), "a,x", calls(0, 1));
    fails(&rt, separated::<_, _, _, _, _, (), _, _, _>(alloc, 1.., 'a', ','), "x", calls(0, 1));
}
