//! Failed growth of a list, and out of memory in errors that hold lists.
use std::alloc::{Allocator, Global};
use test_support::refusing::Refusing;
use winnow::ascii::impls::{Alpha1, DecUint};
use winnow::combinator::{cut_err, opt, separated_pair, terminated};
use winnow::error::{EmptyError, ErrMode, ExpectedError, InputError, OrNoMemory, ParseFault};
use winnow::prelude::*;

/// Numbers with commas between them, into a list that grows.
fn numbers<A: Allocator>(alloc: A, input: &mut &str) -> Result<Vec<u32, A>, ErrMode<EmptyError>> {
    let mut list = Vec::new(alloc);
    for _ in 0..u32::MAX {
        let number = DecUint.parse_next(input)?;
        list.push(number).or_no_memory(input)?;
        let comma: Option<char> = opt(',').parse_next(input)?;
        if comma.is_none() {
            break;
        }
    }
    Ok(list)
}

/// One number, into a list of its own.
fn one<'i, A: Allocator>(
    alloc: A,
    input: &mut &'i str,
) -> Result<Vec<u32, A>, InputError<&'i str>> {
    let mut list = Vec::new(alloc);
    let number = DecUint.parse_next(input)?;
    list.push(number).or_no_memory(input)?;
    list.reserve(100).or_no_memory(input)?;
    Ok(list)
}

#[test]
fn a_refused_growth(rt: HostRuntime) {
    let read = numbers(rt.alloc(), &mut "1,2,3");
    assert!(rt; matches!(&read, Ok(list) if list.len() == 3));
    for n in 0..3u64 {
        let heap = Refusing::once(rt.alloc(), n);
        let read = numbers(&heap, &mut "1,2,3,4,5,6,7,8,9");
        match read {
            Ok(list) => assert!(rt; !heap.met() && list.len() == 9),
            Err(error) => assert!(rt; heap.met() && ParserError::<&str>::is_memory(&error)),
        }
        let heap = Refusing::once(rt.alloc(), n);
        match one(&heap, &mut "7") {
            Ok(list) => assert!(rt; !heap.met() && list.len() == 1),
            Err(error) => assert!(rt; heap.met() && ParserError::<&str>::is_memory(&error)),
        }
    }
}

/// Parses a whole text as settings, each with a semicolon after it. Their names borrow from it.
fn parse_settings<'i, A: Allocator>(
    alloc: A,
    text: &'i str,
) -> Result<Vec<(&'i str, u32), A>, ParseFault<&'i str, EmptyError>> {
    let mut input = text;
    let mut list = Vec::new(alloc);
    while input.eof_offset() > 0 {
        let setting = separated_pair(Alpha1, '=', cut_err(DecUint));
        let read: Result<_, ErrMode<_>> = terminated(setting, ';').parse_next(&mut input);
        match read {
            Ok(setting) => list.push(setting).or_fault(input, text.checkpoint())?,
            Err(error) => return Err(ParseFault::at(input, text.checkpoint(), error)),
        }
    }
    Ok(list)
}

#[test]
fn a_refused_growth_of_a_whole(rt: HostRuntime) {
    for (text, offset) in [("a=1;b=x", 6), ("a=1;b", 5), ("a=1;;", 4), ("a=1", 3)] {
        match parse_settings(rt.alloc(), text) {
            Err(ParseFault::Invalid(error)) => {
                assert_eq!(rt; (error.offset(), *error.input()), (offset, text));
            }
            _ => assert!(rt; false, "{text}"),
        }
    }
    for n in 0..3u64 {
        let heap = Refusing::once(rt.alloc(), n);
        match parse_settings(&heap, "a=1;b=2;c=3;d=4;e=5;f=6;g=7;h=8;i=9;") {
            Ok(list) => assert!(rt; !heap.met() && list.len() == 9),
            Err(ParseFault::Invalid(error)) => {
                assert!(rt; heap.met() && ParserError::<&str>::is_memory(error.inner()));
                assert!(rt; error.offset() > 0 && error.offset() % 4 == 0);
            }
            Err(ParseFault::Incomplete(_)) => assert!(rt; false),
        }
    }
}

/// Three errors, joined, each of one word.
fn joined<'h>(heap: &'h Refusing<Global>) -> ExpectedError<&'static str, &'h Refusing<Global>> {
    let mut all = ExpectedError::new();
    for word in ["on", "off", "auto"] {
        let mut one = ExpectedError::new();
        one.push(heap, word);
        all = all.joined(one);
    }
    all
}

#[test]
fn a_choice_that_cannot_keep_all(rt: HostRuntime) {
    for n in 0..6u64 {
        let heap = Refusing::once(rt.alloc(), n);
        let error = joined(&heap);
        if heap.met() {
            assert!(rt; ParserError::<&str>::is_memory(&error), "request {n}");
        } else {
            assert_eq!(rt; error.expected(), ["on", "off", "auto"].as_slice());
        }
    }
}
