//! Allocation failures.
use crate::common::{AtBytes, Bytes, counting};
use readers::calc::value;
use readers::fault::ReadError;
use readers::ini::document;
use std::alloc::{Allocator, Global};
use std::cell::Cell;
use std::fmt::Debug;
use std::process::Abort;
use stream_errors::empty::EmptyError;
use stream_errors::parser_error::ParserError;
use stream_sets::range::Range;
use test_support::outcomes::Kind::{self, Memory};
use test_support::refusing::{Refusing, refused_in_turn};
use test_support::rows::{Modal, outcome_at, same};
use winnow_ascii::ascii::impls::Digit1;
use winnow_binary::binary;
use winnow_binary::binary::impls::LengthRepeat;
use winnow_comb::combinator::alt;
use winnow_core::combinator::impls::ParseTo;
use winnow_core::parser::Parser;
use winnow_integers::binary::impls::U8;
use winnow_repeat::combinator::impls::{Repeat, RepeatTill};
use winnow_repeat::combinator::{repeat, repeat_till};
use winnow_separated::combinator::impls::Separated;
use winnow_separated::combinator::{separated, separated_foldr1};
use winnow_token::token::impls::Any;

/// Checks that a call with a failed allocation returns `refused`, and otherwise `want`. Every
/// allocation fails in turn until a call meets no failure, and then all from each one on.
fn wants_memory<T: PartialEq + Debug + Copy>(
    rt: &impl Abort,
    name: &str,
    alloc: Global,
    mut run: impl FnMut(&Refusing<Global>) -> T,
    (want, refused): (T, T),
) {
    let mut number = 0;
    let mut met = true;
    while met {
        let heap = Refusing::once(alloc, number);
        let got = run(&heap);
        met = heap.met();
        let want = if met { refused } else { want };
        assert_eq!(rt; got, want, "{name}, request {number} refused: {met}");
        number += 1;
    }
    assert!(rt; number > 1, "{name} asks for memory");
    for first in 0..number - 1 {
        let heap = Refusing::always_from(alloc, first);
        assert_eq!(rt; run(&heap), refused, "{name}, refused from {first} on");
    }
}

#[test]
fn document_without_memory(rt: HostRuntime) {
    let text = "[a]\r\nx = 1 ; c\n\n[b]\n";
    wants_memory(
        &rt,
        "document",
        rt.alloc(),
        |heap| match document(heap, text.as_bytes()) {
            Ok(sections) => Ok(sections.len()),
            Err(fault) => Err(fault),
        },
        (Ok(2), Err(ReadError::NoMemory)),
    );
}

#[test]
fn value_without_memory(rt: HostRuntime) {
    wants_memory(
        &rt,
        "value",
        rt.alloc(),
        |heap| value(heap, "-3!+2*4"),
        (Ok(2), Err(ReadError::NoMemory)),
    );
    let heap = Refusing::always_from(rt.alloc(), 0);
    assert_eq!(rt; value(&heap, "7!"), Ok(5040), "no operator waits");
    assert!(rt; !heap.met(), "no operator waits");
    assert_eq!(rt; value(&heap, "-1"), Err(ReadError::NoMemory), "one waits");
}

/// Differences, nested to the right.
fn differences<A: Allocator + Copy>(alloc: A, text: &'static str) -> (Result<u32, Kind>, usize) {
    let number: ParseTo<Digit1, Bytes, Bytes, u32, AtBytes> = Digit1.parse_to();
    let difference = |left: u32, _: u8, right: u32| left - right;
    let mut parser = separated_foldr1(alloc, number, b'-', difference);
    let (answer, rest) = outcome_at::<Bytes, u32, AtBytes, _>(&mut parser, text);
    (answer, rest.len())
}

#[test]
fn separated_foldr1_without_memory(rt: HostRuntime) {
    wants_memory(
        &rt,
        "separated_foldr1",
        rt.alloc(),
        |heap| differences(heap, "9-5-2").0,
        (Ok(6), Err(Memory)),
    );
    refused_in_turn(
        &rt,
        "separated_foldr1",
        rt.alloc(),
        |heap| differences(heap, "9-1-1-1-1-1-1-1-1-1-1-1-1-1-1-1-1;"),
        (Ok(9), 1),
    );
}

/// Bytes in a list.
type Listed<A> = Repeat<Any, Bytes, u8, Vec<u8, A>, AtBytes, A>;

fn listed<A: Allocator + Copy>(alloc: A) -> Listed<A> {
    repeat(alloc, 0.., Any)
}

/// If the first branch of `alt` runs out of memory, `alt` does too, without running the second
/// branch.
#[test]
fn alt_behind_want_of_memory(rt: HostRuntime) {
    let heap = Refusing::always_from(rt.alloc(), 0);
    let runs = Cell::new(0);
    let first = listed(&heap).map(|list: Vec<u8, _>| list.len());
    let second = counting(Any.value(0usize), &runs);
    let mut either = alt((first, second));
    let (answer, _) = outcome_at::<Bytes, usize, AtBytes, _>(&mut either, "ab");
    same(&rt, "alt", "ab", (answer, runs.get()), (Err(Memory), 0));
    assert!(rt; heap.met(), "the first branch is refused memory");
    // The second branch of three, in an array and under errors without a mode too.
    let runs = Cell::new(0);
    let second = listed(&heap).map(|list: Vec<u8, _>| list.len());
    let third = counting(Any.value(0usize), &runs);
    let mut either = alt((b'x'.value(9usize), second, third));
    let (answer, _) = outcome_at::<Bytes, usize, AtBytes, _>(&mut either, "ab");
    same(
        &rt,
        "alt of three",
        "ab",
        (answer, runs.get()),
        (Err(Memory), 0),
    );
    type List<'h> = Repeat<
        Any,
        Bytes,
        u8,
        Vec<u8, &'h Refusing<Global>>,
        EmptyError,
        &'h Refusing<Global>,
    >;
    let heaps = [
        Refusing::always_from(rt.alloc(), 0),
        Refusing::always_from(rt.alloc(), 0),
    ];
    let first: List<'_> = repeat(&heaps[0], 0.., Any);
    let second: List<'_> = repeat(&heaps[1], 0.., Any);
    let mut either = alt([first, second]);
    let (answer, _) = outcome_at::<Bytes, Vec<u8, _>, EmptyError, _>(&mut either, "ab");
    same(&rt, "alt of an array", "ab", answer.err(), Some(Memory));
    assert!(rt; heaps[0].met(), "the first branch is refused memory");
    assert!(rt; !heaps[1].met(), "the second branch is not run");
}

/// Accumulating into `()` or a number does not allocate, nor does a fold.
fn takes_none<E: ParserError<Bytes>>(rt: &impl Abort, alloc: Global) {
    let heap = Refusing::always_from(alloc, 0);
    let any = Range::from(0..);
    let mut parser: Repeat<Any, Bytes, u8, usize, E, _> = repeat(&heap, any, Any);
    let got = outcome_at::<Bytes, usize, E, _>(&mut parser, "abc");
    same(rt, "repeat", "abc", got.0, Ok(3));
    let mut parser: Repeat<Any, Bytes, u8, (), E, _> = repeat(&heap, any, Any);
    let got = outcome_at::<Bytes, (), E, _>(&mut parser, "abc");
    same(rt, "repeat", "abc", got.0, Ok(()));
    let parser: Repeat<Any, Bytes, u8, (), E, _> = repeat(&heap, any, Any);
    let mut parser = parser.fold(|| 0u8, |count: u8, _: u8| count + 1);
    let got = outcome_at::<Bytes, u8, E, _>(&mut parser, "abc");
    same(rt, "fold", "abc", got.0, Ok(3));
    let parser: Repeat<Any, Bytes, u8, (), E, _> = repeat(&heap, any, Any);
    let mut parser = parser.verify_fold(|| 0u8, |count: u8, _: u8| count.checked_add(1));
    let got = outcome_at::<Bytes, u8, E, _>(&mut parser, "abc");
    same(rt, "verify_fold", "abc", got.0, Ok(3));
    let mut parser: RepeatTill<Any, u8, Bytes, u8, u8, usize, E, _> = repeat_till(
        &heap, any, Any, b';',
    );
    let got = outcome_at::<Bytes, (usize, u8), E, _>(&mut parser, "abc;");
    same(rt, "repeat_till", "abc;", got.0, Ok((3, b';')));
    let mut parser: Separated<Any, u8, Bytes, u8, u8, usize, E, _> = separated(
        &heap, any, Any, b',',
    );
    let got = outcome_at::<Bytes, usize, E, _>(&mut parser, "a,b,c");
    same(rt, "separated", "a,b,c", got.0, Ok(3));
    let mut parser: LengthRepeat<U8, Any, Bytes, u8, u8, usize, E, _> = binary::length_repeat(
        &heap, U8, Any,
    );
    let got = outcome_at::<Bytes, usize, E, _>(&mut parser, "\u{2}ab");
    same(rt, "length_repeat", "2ab", got.0, Ok(2));
    assert!(rt; !heap.met(), "none of these asks for memory");
}

#[test]
fn repetitions_that_take_no_memory(rt: HostRuntime) {
    takes_none::<AtBytes>(&rt, rt.alloc());
    takes_none::<Modal>(&rt, rt.alloc());
    takes_none::<EmptyError>(&rt, rt.alloc());
}
