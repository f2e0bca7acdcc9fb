//! Comma-separated values without quotes.
#![tactic(auto, using(winnow::specs::Rules::ends_follow))]

ghost use Rattle.winnow.specs.Terms.{AnyOutcome, meets_no_terms, no_terms};
ghost use Rattle.std.specs.Prelude.{⊤};
ghost use Rattle.winnow.specs.Text.{text_input, text_reading};
ghost use Rattle.winnow.specs.Input.{IsEndOf};

use crate::outcome::Outcome;
use std::alloc::Global;
use std::str;
use winnow::Parser;
use winnow::combinator::{preceded, repeat, terminated};
use winnow::error::{ErrMode, InputError};
use winnow::token::{one_of, take_until};

/// A row: its first field, and the others.
type Row<'i> = (&'i str, Vec<&'i str, Global>);

/// Parses the fields of a row after the first, each preceded by a comma.
fn others<'i>(
    alloc: Global,
    input: &mut &'i str,
) -> Result<Vec<&'i str, Global>, ErrMode<InputError<&'i str>>>
    ensures { IsEndOf text_reading (text_input input.new.now) (text_input input.old.now) }
{
    repeat(
        alloc,
        0..,
        preceded(',', take_until(0.., (',', '\n'))),
    )
    .parse_next(input)
}

/// Parses a row and the line feed after it.
fn row<'i>(alloc: Global, input: &mut &'i str) -> Result<Row<'i>, ErrMode<InputError<&'i str>>>
    ensures { IsEndOf text_reading (text_input input.new.now) (text_input input.old.now) }
{
    let first = match take_until(0.., (',', '\n')).parse_next(input) {
        Ok(first) => first,
        Err(error) => return Err(error),
    };
    let others = match others(alloc, input) {
        Ok(others) => others,
        Err(error) => return Err(error),
    };
    match '\n'.parse_next(input) {
        Ok(_) => Ok((first, others)),
        Err(error) => Err(error),
    }
}

/// The parser of a row.
#[derive(Clone, Copy, Drop)]
struct RowReader {
    alloc: Global,
}

impl<'i> Parser<&'i str, Row<'i>, ErrMode<InputError<&'i str>>> for RowReader {
    ghost State = { ⊤ };

    ghost state = { λ _. tt };

    ghost does = { AnyOutcome };

    ghost terms = { no_terms };

    ghost lawful = { meets_no_terms };

    #[inline(always)]
    fn parse_next(&mut self, input: &mut &'i str) -> Result<Row<'i>, ErrMode<InputError<&'i str>>> {
        row(self.alloc, input)
    }
}

/// Parses as many rows as possible.
fn rows<'i>(
    alloc: Global,
    input: &mut &'i str,
) -> Result<Vec<Row<'i>, Global>, ErrMode<InputError<&'i str>>> {
    repeat(alloc, 0.., RowReader { alloc }).parse_next(input)
}

/// Returns the number of rows and of their fields.
fn totals(rows: &[Row<'_>]) -> (u64, u64) {
    let mut count: u64 = 0;
    let mut sum: u64 = 0;
    for row in rows {
        count = count.wrapping_add(1);
        sum = sum.wrapping_add(1).wrapping_add(row.1.len() as u64);
    }
    (count, sum)
}

/// Parses rows of fields into a list of lists of strings. Counts the rows and their fields. `out`
/// stays zero if the input is not UTF-8 or an allocation fails.
#[unsafe(no_mangle)]
pub extern "C" fn timed_rows(alloc: Global, input: &[u8], out: &mut Outcome) {
    *out = Outcome {
        count: 0,
        sum: 0,
        left: 0,
    };
    let Ok(text) = str::from_utf8(input) else {
        return;
    };
    let mut rest = text;
    if let Ok(all) = rows(alloc, &mut rest) {
        let (count, sum) = totals(&all);
        out.count = count;
        out.sum = sum;
        out.left = rest.as_bytes().len() as u64;
    }
}

/// Counts the fields that are followed by a comma or a line feed.
fn counted<'i>(
    alloc: Global,
    input: &mut &'i [u8],
) -> Result<usize, ErrMode<InputError<&'i [u8]>>> {
    repeat(
        alloc,
        0..,
        terminated(
            take_until(0.., (b',', b'\n')),
            one_of((b',', b'\n')),
        ),
    )
    .parse_next(input)
}

/// Counts the fields.
#[unsafe(no_mangle)]
pub extern "C" fn timed_fields(alloc: Global, input: &[u8], out: &mut Outcome) {
    let mut rest = input;
    *out = Outcome {
        count: 0,
        sum: 0,
        left: 0,
    };
    if let Ok(all) = counted(alloc, &mut rest) {
        out.count = all as u64;
        out.left = rest.len() as u64;
    }
}
