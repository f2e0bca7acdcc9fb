//! Numbers with an iterator, and lists of lists of numbers.

ghost use Rattle.std.specs.Prelude.{◌≡◌, false};

use crate::outcome::Outcome;
use std::alloc::Global;
use winnow::ascii::impls::DecUint;
use winnow::combinator::impls::ParseIter;
use winnow::combinator::{separated, terminated};
use winnow::error::{EmptyError, ErrMode, InputError};
use winnow::prelude::*;

/// Counts and sums the items of an input. `left` is 1 if a part of the input is not an item.
fn sum_of_items<P: Parser<I, u32, E>, I: StreamIsPartial, E: ParserError<I>>(
    item: &mut P,
    input: I,
) -> Outcome
    requires callable { P.can_parse item.old }
    requires whole { I.supports_partial ≡ false }
{
    let mut count: u64 = 0;
    let mut sum: u64 = 0;
    let mut left: u64 = 0;
    let items: ParseIter<'_, P, I, u32, E> = item.parse_iter(input);
    for item in items {
        match item {
            Ok(number) => {
                count = count.wrapping_add(1);
                sum = sum.wrapping_add(number as u64);
            }
            Err(_) => left = 1,
        }
    }
    Outcome { count, sum, left }
}

/// Sums numbers, each followed by a comma, with an iterator.
#[unsafe(no_mangle)]
pub extern "C" fn timed_number_items(input: &[u8], out: &mut Outcome) {
    let mut item = terminated(DecUint, b',');
    *out = sum_of_items::<_, &[u8], EmptyError>(&mut item, input);
}

/// A list of lists of numbers.
type Lists = Vec<Vec<u32, Global>, Global>;

/// Lists of numbers, with line feeds between them.
fn lists<'i>(alloc: Global, input: &mut &'i [u8]) -> Result<Lists, ErrMode<InputError<&'i [u8]>>> {
    let number = DecUint.map(|number: u32| number);
    let list = separated(alloc, 1.., number, b',').map(|list: Vec<u32, Global>| list);
    separated(alloc, 0.., list, b'\n').parse_next(input)
}

/// Returns the number of numbers in all lists.
fn numbers(lists: &[Vec<u32, Global>]) -> u64 {
    let mut sum: u64 = 0;
    for list in lists {
        sum = sum.wrapping_add(list.len() as u64);
    }
    sum
}

/// Parses lists of numbers: the numbers are separated by commas, the lists by line feeds. Counts
/// the lists and the numbers. `out` stays zero if an allocation fails.
#[unsafe(no_mangle)]
pub extern "C" fn timed_number_lists(alloc: Global, input: &[u8], out: &mut Outcome) {
    let mut rest = input;
    *out = Outcome {
        count: 0,
        sum: 0,
        left: 0,
    };
    if let Ok(all) = lists(alloc, &mut rest) {
        out.count = all.len() as u64;
        out.sum = numbers(&all);
        out.left = rest.len() as u64;
    }
}
