//! A table of symbols: a parser that adds to it, and others that look names up; and a struct of the
//! outputs of a sequence.

use std::alloc::Global;
use std::collections::BTreeMap;
use test_support::rows::Modal;
use winnow::ascii::impls::{Alpha1, DecUint};
use winnow::combinator::{alt, delimited, preceded, separated_foldl1, seq};
use winnow::error::OrNoMemory;
use winnow::prelude::*;

type Symbols<'i> = BTreeMap<&'i str, u32>;

/// Parses numbers and known names with plus signs between them, and returns the sum. An unknown
/// name backtracks.
fn read_sum(symbols: &Symbols<'_>, input: &mut &str) -> Result<u32, Modal> {
    let known = Alpha1.verify_map(|name: &str| symbols.get(name).copied());
    separated_foldl1(
        alt((DecUint, known)),
        '+',
        |left: u32, _plus: char, right: u32| { left.saturating_add(right) },
    )
    .parse_next(input)
}

/// Parses a line `let name=sum`, and adds the name to the table.
fn read_definition<'i>(symbols: &mut Symbols<'i>, input: &mut &'i str) -> Result<(), Modal> {
    let name = delimited("let ", Alpha1, '=').parse_next(input)?;
    let value = read_sum(symbols, input)?;
    '\n'.parse_next(input)?;
    symbols.insert(name, value).or_no_memory(input)?;
    Ok(())
}

/// Parses definitions, and the line `print sum` after them, whose sum it returns.
fn read_program(alloc: Global, input: &mut &str) -> Result<u32, Modal> {
    let mut symbols = BTreeMap::new(alloc);
    while input.starts_with("let ") {
        read_definition(&mut symbols, input)?;
    }
    let _print: &str = "print ".parse_next(input)?;
    let sum = read_sum(&symbols, input)?;
    '\n'.parse_next(input)?;
    Ok(sum)
}

#[test]
fn symbols(rt: HostRuntime) {
    let program = "let a=1\nlet b=a+20\nlet a=b+a\nprint a+b+300\n";
    assert_eq!(rt; read_program(rt.alloc(), &mut &*program).ok(), Some(343));
    let mut input = "let a=1\nprint a+c\n";
    assert!(rt; read_program(rt.alloc(), &mut input).is_err());
    assert_eq!(rt; input, "+c\n");
}

/// A range of lines.
#[derive(Clone, Copy, Debug, PartialEq, Eq)]
struct Span {
    first: u32,
    last: u32,
}

/// Parses a range of lines, as `3-7`.
fn read_span(input: &mut &str) -> Result<Span, Modal> {
    seq!(Span { first: DecUint, _: '-', last: DecUint }).parse_next(input)
}

#[test]
fn spans(rt: HostRuntime) {
    let span = Span { first: 3, last: 7 };
    assert_eq!(rt; read_span(&mut "3-7").ok(), Some(span));
    assert!(rt; read_span(&mut "3-").is_err());
}
