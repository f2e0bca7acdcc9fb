//! How often children are run on long inputs, up to 128 KiB: as often as there are units, and a few
//! times more.
use crate::common::counting;
use std::alloc::Global;
use std::cell::Cell;
use std::process::Abort;
use std::test::Fail;
use stream_errors::empty::EmptyError;
use stream_errors::parser_error::ParserError;
use streams::stream::Stream;
use test_support::outcomes::Kind::{self, Backtrack};
use test_support::outcomes::outcome_of;
use winnow_comb::combinator::opt;
use winnow_core::parser::Parser;
use winnow_expression::combinator::{FoldBinary, FoldUnary, Infix, Postfix, Prefix, expression};
use winnow_repeat::combinator::impls::{Repeat, RepeatTill};
use winnow_repeat::combinator::{repeat, repeat_till};
use winnow_separated::combinator::impls::Separated;
use winnow_separated::combinator::{separated, separated_foldl1, separated_foldr1};
use winnow_token::token::impls::Any;

/// The bytes of the longest inputs.
const SIZE: usize = 1 << 17;

/// The bytes of the others, where each takes more time.
const FEWER: usize = 1 << 15;

/// How often a part of an expression occurs in its input.
const OPERATORS: usize = 1 << 12;

/// So many times a part, between a first and a last one.
pub(crate) fn times(
    alloc: Global,
    (first, part, count, last): (&[u8], &[u8], usize, &[u8]),
) -> Result<Vec<u8>, Fail> {
    let mut bytes = Vec::new(alloc);
    bytes.extend_from_slice(first)?;
    for _ in 0..count {
        bytes.extend_from_slice(part)?;
    }
    bytes.extend_from_slice(last)?;
    Ok(bytes)
}

/// A number of runs.
fn runs() -> Cell<usize> {
    Cell::new(0)
}

/// Checks a result, the number of remaining bytes, and how often the children were called.
fn ran<O: PartialEq + std::fmt::Debug + Drop>(
    rt: &impl Abort,
    name: &str,
    got: (Result<O, Kind>, &[u8]),
    want: (Result<O, Kind>, usize),
    (first, second): (&Cell<usize>, &Cell<usize>),
    (first_runs, second_runs): (usize, usize),
) {
    assert_eq!(rt; (got.0, got.1.len()), want, "{name}");
    assert_eq!(rt;
        first.get(),
        first_runs,
        "runs of the first child of {name}"
    );
    assert_eq!(rt;
        second.get(),
        second_runs,
        "runs of the second child of {name}"
    );
}

/// A repetition runs its child once a unit, and once more.
#[test]
fn repeat_of_many(rt: HostRuntime) -> Result<(), Fail> {
    let bytes = times(rt.alloc(), (b"", b"aaaaaaaa", SIZE / 8, b""))?;
    let (items, none) = (runs(), runs());
    let mut parser: Repeat<_, &[u8], u8, usize, EmptyError, Global> = repeat(
        rt.alloc(),
        0..,
        counting(Any, &items),
    );
    let got = outcome_of::<&[u8], usize, EmptyError, _>(&mut parser, bytes.as_slice());
    ran(
        &rt,
        "repeat",
        got,
        (Ok(SIZE), 0),
        (&items, &none),
        (SIZE + 1, 0),
    );
    Ok(())
}

/// A fold too.
#[test]
fn fold_of_many(rt: HostRuntime) -> Result<(), Fail> {
    let bytes = times(rt.alloc(), (b"", b"aaaaaaaa", FEWER / 8, b";"))?;
    let (items, none) = (runs(), runs());
    let parser: Repeat<_, &[u8], u8, (), EmptyError, Global> = repeat(
        rt.alloc(),
        1..,
        counting(b'a', &items),
    );
    let mut parser = parser.fold(|| 0usize, |count: usize, _: u8| count + 1);
    let got = outcome_of::<&[u8], usize, EmptyError, _>(&mut parser, bytes.as_slice());
    ran(
        &rt,
        "fold",
        got,
        (Ok(FEWER), 1),
        (&items, &none),
        (FEWER + 1, 0),
    );
    Ok(())
}

/// A repetition until a terminator that never comes tries it once a unit, and once more.
#[test]
fn repeat_till_of_many(rt: HostRuntime) -> Result<(), Fail> {
    let bytes = times(rt.alloc(), (b"", b"aaaaaaaa", FEWER / 8, b""))?;
    let (items, ends) = (runs(), runs());
    let mut parser: RepeatTill<_, _, &[u8], u8, u8, usize, EmptyError, Global> = repeat_till(
        rt.alloc(),
        0..,
        counting(Any, &items),
        counting(b';', &ends),
    );
    let got = outcome_of::<&[u8], (usize, u8), EmptyError, _>(&mut parser, bytes.as_slice());
    let name = "repeat_till";
    ran(
        &rt,
        name,
        got,
        (Err(Backtrack), 0),
        (&items, &ends),
        (FEWER + 1, FEWER + 1),
    );
    Ok(())
}

/// Elements and separators without a last element.
#[test]
fn separated_of_many(rt: HostRuntime) -> Result<(), Fail> {
    let pairs = FEWER / 2;
    let bytes = times(rt.alloc(), (b"", b"a,a,a,a,", pairs / 4, b""))?;
    let (items, commas) = (runs(), runs());
    let mut parser: Separated<_, _, &[u8], u8, u8, usize, EmptyError, Global> = separated(
        rt.alloc(),
        0..,
        counting(b'a', &items),
        counting(b',', &commas),
    );
    let got = outcome_of::<&[u8], usize, EmptyError, _>(&mut parser, bytes.as_slice());
    ran(
        &rt,
        "separated",
        got,
        (Ok(pairs), 1),
        (&items, &commas),
        (pairs + 1, pairs),
    );
    Ok(())
}

/// Only separators, with empty elements between them.
#[test]
fn separated_of_many_empty_elements(rt: HostRuntime) -> Result<(), Fail> {
    let bytes = times(rt.alloc(), (b"", b",,,,,,,,", FEWER / 8, b""))?;
    let (items, commas) = (runs(), runs());
    let mut parser: Separated<_, _, &[u8], Option<u8>, u8, usize, EmptyError, Global> = separated(
        rt.alloc(),
        1..,
        counting(opt(b'a'), &items),
        counting(b',', &commas),
    );
    let got = outcome_of::<&[u8], usize, EmptyError, _>(&mut parser, bytes.as_slice());
    let name = "separated, empty elements";
    ran(
        &rt,
        name,
        got,
        (Ok(FEWER + 1), 0),
        (&items, &commas),
        (FEWER + 1, FEWER + 1),
    );
    Ok(())
}

/// Folds of elements with separators, nested to either side.
#[test]
fn separated_folds_of_many(rt: HostRuntime) -> Result<(), Fail> {
    let pairs = FEWER / 2;
    let bytes = times(rt.alloc(), (b"", b"a,", pairs, b""))?;
    let (items, commas) = (runs(), runs());
    let mut parser = separated_foldl1(
        counting(b'a'.value(1usize), &items),
        counting(b',', &commas),
        |left: usize, _: u8, right: usize| left + right,
    );
    let got = outcome_of::<&[u8], usize, EmptyError, _>(&mut parser, bytes.as_slice());
    ran(
        &rt,
        "separated_foldl1",
        got,
        (Ok(pairs), 1),
        (&items, &commas),
        (pairs + 1, pairs),
    );
    let (items, commas) = (runs(), runs());
    let mut parser = separated_foldr1(
        rt.alloc(),
        counting(b'a'.value(1usize), &items),
        counting(b',', &commas),
        |left: usize, _: u8, right: usize| left + right,
    );
    let got = outcome_of::<&[u8], usize, EmptyError, _>(&mut parser, bytes.as_slice());
    ran(
        &rt,
        "separated_foldr1",
        got,
        (Ok(pairs), 1),
        (&items, &commas),
        (pairs + 1, pairs),
    );
    Ok(())
}

/// The number of the operators of an expression.
#[derive(Clone, Copy)]
struct Counts;

impl<I: Stream, E: ParserError<I>> FoldUnary<I, usize, E> for Counts {
    ghost folds = { tt };

    ghost leaves_ends = { tt };

    fn apply(&self, input: &mut I, operand: usize) -> Result<usize, E> {
        Ok(operand + 1)
    }
}

impl<I: Stream, E: ParserError<I>> FoldBinary<I, usize, E> for Counts {
    ghost folds = { tt };

    ghost leaves_ends = { tt };

    fn apply(&self, input: &mut I, left: usize, right: usize) -> Result<usize, E> {
        Ok(left + right + 1)
    }
}

fn infix_of(symbol: u8) -> Option<Infix<Counts>> {
    match symbol {
        b'+' => Some(Infix::Left(5, Counts)),
        b'*' => Some(Infix::Left(7, Counts)),
        b'^' => Some(Infix::Right(9, Counts)),
        b'=' => Some(Infix::Neither(3, Counts)),
        _ => None,
    }
}

/// How often an expression runs the parsers of its operands, prefixes, postfixes and infixes, how
/// many operators it has, and how many bytes it leaves.
fn runs_of(alloc: Global, bytes: &[u8]) -> ([usize; 4], Result<usize, Kind>, usize) {
    let all = [runs(), runs(), runs(), runs()];
    let prefix = |symbol: u8| if symbol == b'-' {
        Some(Prefix(12, Counts))
    } else {
        None
    };
    let postfix = |symbol: u8| if symbol == b'!' {
        Some(Postfix(4, Counts))
    } else {
        None
    };
    let mut parser = expression(alloc, counting(b'1'.value(0usize), &all[0]))
        .prefix(counting(Any.verify_map(prefix), &all[1]))
        .postfix(counting(Any.verify_map(postfix), &all[2]))
        .infix(counting(Any.verify_map(infix_of), &all[3]));
    let (answer, rest) = outcome_of::<&[u8], usize, EmptyError, _>(&mut parser, bytes);
    let runs = [all[0].get(), all[1].get(), all[2].get(), all[3].get()];
    (runs, answer, rest.len())
}

/// Checks how often an expression of `OPERATORS` repetitions of `part` calls its parsers. The rest
/// is a semicolon.
fn expression_runs(
    rt: &impl Abort,
    alloc: Global,
    (first, part, last): (&str, &str, &str),
    (operators, runs): (usize, [usize; 4]),
) -> Result<(), Fail> {
    let parts = (
        first.as_bytes(),
        part.as_bytes(),
        OPERATORS,
        last.as_bytes(),
    );
    let bytes = times(alloc, parts)?;
    let got = runs_of(alloc, bytes.as_slice());
    assert_eq!(rt;
        got,
        (runs, Ok(operators), 1),
        "an expression of many {part:?}"
    );
    Ok(())
}

/// A call ends where an operator is too weak, or none comes; then the call around it looks at the
/// same place. So each place of an operator is looked at once by each call that ends there.
#[test]
fn expression_of_many(rt: HostRuntime) -> Result<(), Fail> {
    let (alloc, n) = (rt.alloc(), OPERATORS);
    expression_runs(&rt, alloc, ("", "-", "1;"), (n, [n + 1, n, n + 1, n + 1]))?;
    expression_runs(
        &rt,
        alloc,
        ("1", "+1", ";"),
        (n, [n + 1, 0, 2 * n + 1, 2 * n + 1]),
    )?;
    expression_runs(
        &rt,
        alloc,
        ("1", "^1", ";"),
        (n, [n + 1, 0, 2 * n + 1, 2 * n + 1]),
    )?;
    expression_runs(&rt, alloc, ("1", "!", ";"), (n, [1, 0, n + 1, 1]))
}

/// Many calls that end at one operator, and one operator that ends many calls.
#[test]
fn expression_of_many_weak_operators(rt: HostRuntime) -> Result<(), Fail> {
    let (alloc, n) = (rt.alloc(), OPERATORS);
    // The prefixes end at the sum, and the sum at its end: the first place is looked at by n + 1
    // calls, the last one by two.
    expression_runs(
        &rt,
        alloc,
        ("", "-", "1+1;"),
        (n + 1, [n + 2, n, n + 3, n + 3]),
    )?;
    // A postfix that is weaker than the powers around it ends them.
    expression_runs(
        &rt,
        alloc,
        ("1", "^1", "!;"),
        (n + 1, [n + 1, 0, 2 * n + 2, n + 1]),
    )?;
    // The second comparison ends the expression in the first call.
    let bytes = times(alloc, (b"1=", b"-", n, b"1=1"))?;
    let got = runs_of(alloc, bytes.as_slice());
    let want = ([n + 2, n, n + 3, n + 3], Ok(n + 1), 2);
    assert_eq!(rt; got, want, "an expression that a second comparison ends");
    Ok(())
}
