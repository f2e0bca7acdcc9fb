//! Repetitions.
mod accumulators;
mod folds;
mod iterators;
mod repeat;
mod repeat_till;
mod separated;
mod slices;

use std::fmt::Debug;
use std::process::Abort;
use test_support::outcomes::Kind;
use test_support::rows::same;

/// How many items a list has, in place of it, and the units left.
fn counted<O: Drop, A: std::alloc::Allocator>(
    (answer, left): (Result<Vec<O, A>, Kind>, usize),
) -> (Result<usize, Kind>, usize) {
    match answer {
        Ok(list) => (Ok(list.len()), left),
        Err(kind) => (Err(kind), left),
    }
}

/// A list that was got has these items.
fn same_items<T: PartialEq + Debug + Drop>(
    rt: &impl Abort,
    name: &str,
    row: &str,
    got: Result<Vec<T>, Kind>,
    want: Result<&[T], Kind>,
) {
    match got {
        Ok(list) => same(rt, name, row, Ok(list.as_slice()), want),
        Err(kind) => same(rt, name, row, Err(kind), want),
    }
}
