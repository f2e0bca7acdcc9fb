//! Texts with escapes: children that consume no input, allocation failures, and long inputs.
use crate::common::{AtBytes, Bytes, Plain, counting};
use crate::counts::times;
use std::alloc::{Allocator, Global};
use std::cell::Cell;
use std::process::Abort;
use std::test::Fail;
use stream_errors::control::ControlError;
use stream_errors::empty::EmptyError;
use stream_errors::parser_error::ParserError;
use test_support::outcomes::Kind::{self, Backtrack, Cut, Memory};
use test_support::outcomes::outcome_of;
use test_support::refusing::Refusing;
use test_support::rows::{Modal, outcome_at, same};
use winnow_ascii::ascii::impls::Alpha1;
use winnow_comb::combinator::alt;
use winnow_comb::combinator::impls::Empty;
use winnow_core::parser::{Func, Parser};
use winnow_escapes::ascii::impls::{Escaped, TakeEscaped};
use winnow_escapes::ascii::{escaped, take_escaped};
use winnow_token::token::impls::Any;

/// A turn that consumes nothing, of the control and the escape or of the normal text.
fn turns_of_nothing<E: ParserError<Bytes>>(rt: &impl Abort, alloc: Global, asserted: Kind) {
    for (text, left) in [("1", 1), ("a1", 1)] {
        let mut parser: TakeEscaped<_, _, _, Bytes, Bytes, (), (), E> = take_escaped(
            Alpha1, Empty, Empty,
        );
        let (answer, rest) = outcome_at::<Bytes, Bytes, E, _>(&mut parser, text);
        same(
            rt,
            "take_escaped",
            text,
            (answer, rest.len()),
            (Err(asserted), left),
        );
        let mut parser: Escaped<_, _, _, Bytes, Bytes, (), (), usize, E, Global> = escaped(
            alloc, Alpha1, Empty, Empty,
        );
        let (answer, rest) = outcome_at::<Bytes, usize, E, _>(&mut parser, text);
        same(
            rt,
            "escaped",
            text,
            (answer, rest.len()),
            (Err(asserted), left),
        );
    }
    let mut parser: TakeEscaped<_, _, _, Bytes, (), u8, u8, E> = take_escaped(Empty, b'\\', Any);
    let (answer, rest) = outcome_at::<Bytes, Bytes, E, _>(&mut parser, "a");
    same(
        rt,
        "take_escaped",
        "a",
        (answer, rest.len()),
        (Err(asserted), 1),
    );
}

#[test]
fn escapes_that_consume_nothing(rt: HostRuntime) {
    turns_of_nothing::<AtBytes>(&rt, rt.alloc(), Cut);
    turns_of_nothing::<Plain>(&rt, rt.alloc(), Backtrack);
}

/// Returns the length in bytes of an unescaped text, and the number of remaining bytes.
fn read<A: Allocator + Copy>(alloc: A, text: &'static str) -> (Result<usize, Kind>, usize) {
    let named = alt(("n".value("\n"), "\\".value("\\")));
    let mut parser: Escaped<_, _, _, &str, &str, char, &str, String<A>, Modal, A> = escaped(
        alloc, Alpha1, '\\', named,
    );
    let (answer, rest) = outcome_at::<&str, String<A>, Modal, _>(&mut parser, text);
    match answer {
        Ok(read) => {
            let is_read = read.as_str() == "ab\ncd";
            (Ok(if is_read { read.len() } else { 0 }), rest.len())
        }
        Err(kind) => (Err(kind), rest.len()),
    }
}

/// The first allocation fails, then every one.
#[test]
fn escaped_without_memory(rt: HostRuntime) {
    let text = "ab\\ncd;";
    // If its first allocation fails, the text allocates when it grows.
    let heap = Refusing::once(rt.alloc(), 0);
    same(&rt, "escaped", text, read(&heap, text).0, Ok(5));
    assert!(rt; heap.met(), "a text reserves room");
    let heap = Refusing::always_from(rt.alloc(), 0);
    same(&rt, "escaped", text, read(&heap, text).0, Err(Memory));
    assert!(rt; heap.met(), "a text asks for memory");
    // Accumulating into `()` or a number does not allocate.
    let heap = Refusing::always_from(rt.alloc(), 0);
    let mut parser: Escaped<_, _, _, &str, &str, char, char, usize, EmptyError, _> = escaped(
        &heap, Alpha1, '\\', Any,
    );
    let (answer, rest) = outcome_at::<&str, usize, EmptyError, _>(&mut parser, text);
    same(
        &rt,
        "escaped into a number",
        text,
        (answer, rest),
        (Ok(3), ";"),
    );
    assert!(rt; !heap.met(), "a number asks for no memory");
}

/// Out of memory in a control is an error, not the end of the text.
#[test]
fn control_that_wants_memory(rt: HostRuntime) {
    let wants = Func(|input: &mut Bytes| {
        let answer: Result<u8, ControlError> = Err(ControlError::no_memory(input));
        answer
    });
    let mut parser: TakeEscaped<_, _, _, Bytes, Bytes, u8, u8, AtBytes> = take_escaped(
        Alpha1, wants, Any,
    );
    let (answer, rest) = outcome_at::<Bytes, Bytes, AtBytes, _>(&mut parser, "ab1");
    same(
        &rt,
        "take_escaped",
        "ab1",
        (answer, rest.len()),
        (Err(Memory), 1),
    );
}

/// So many escapes run the children once each, and once more where something else follows.
#[test]
fn take_escaped_of_many(rt: HostRuntime) -> Result<(), Fail> {
    let count = 1 << 15;
    let bytes = times(rt.alloc(), (b"", b"\\na", count, b";"))?;
    let runs = [Cell::new(0), Cell::new(0), Cell::new(0)];
    let mut parser: TakeEscaped<_, _, _, &[u8], u8, u8, u8, EmptyError> = take_escaped(
        counting(b'a', &runs[0]),
        counting(b'\\', &runs[1]),
        counting(b'n', &runs[2]),
    );
    let got = outcome_of::<&[u8], &[u8], EmptyError, _>(&mut parser, bytes.as_slice());
    let got = (got.0.map(|taken: &[u8]| taken.len()), got.1.len());
    assert_eq!(rt; got, (Ok(3 * count), 1), "take_escaped");
    assert_eq!(rt; runs[0].get(), 2 * count + 1, "runs of the normal text");
    assert_eq!(rt; runs[1].get(), count + 1, "runs of the control");
    assert_eq!(rt; runs[2].get(), count, "runs of the escape");
    Ok(())
}

/// The same where outputs are counted.
#[test]
fn escaped_of_many(rt: HostRuntime) -> Result<(), Fail> {
    let count = 1 << 15;
    let bytes = times(rt.alloc(), (b"", b"\\na", count, b";"))?;
    let runs = [Cell::new(0), Cell::new(0), Cell::new(0)];
    let mut parser: Escaped<_, _, _, &[u8], u8, u8, u8, usize, EmptyError, Global> = escaped(
        rt.alloc(),
        counting(b'a', &runs[0]),
        counting(b'\\', &runs[1]),
        counting(b'n', &runs[2]),
    );
    let got = outcome_of::<&[u8], usize, EmptyError, _>(&mut parser, bytes.as_slice());
    assert_eq!(rt; (got.0, got.1.len()), (Ok(2 * count), 1), "escaped");
    assert_eq!(rt; runs[0].get(), 2 * count + 1, "runs of the normal text");
    assert_eq!(rt; runs[1].get(), count + 1, "runs of the control");
    assert_eq!(rt; runs[2].get(), count, "runs of the escape");
    Ok(())
}
