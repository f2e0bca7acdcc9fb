//! Allocation failures.
use crate::common::Text;
use std::alloc::Global;
use std::fmt::Debug;
use std::process::Abort;
use test_support::outcomes::Kind::{self, Memory};
use test_support::refusing::{Refusing, refused_in_turn};
use test_support::rows::Modal;
use winnow_ascii::ascii::impls::Digit1;
use winnow_comb::combinator::alt;
use winnow_core::parser::Parser;
use winnow_recovery::parser::{NoMemory, RecoverableParser, RecoveringParser};
use winnow_token::token::impls::Rest;
use winnow_token::token::take_till;

/// Returns the output of a whole parse, and the number of its errors. The text must be returned in
/// any case.
fn output_of<'a, O, P>(
    rt: &impl Abort,
    heap: &'a Refusing<Global>,
    mut parser: P,
    text: &'static str,
) -> (Result<Option<O>, Kind>, usize)
where
    O: PartialEq + Debug + Drop,
    P: Parser<Text<&'a Refusing<Global>>, O, Modal> + Drop,
{
    match parser.recoverable_parse(heap, text) {
        Ok((back, output, errors)) => {
            assert_eq!(rt; back, text, "{text:?} comes back");
            (Ok(output), errors.len())
        }
        Err(NoMemory(back)) => {
            assert_eq!(rt; back, text, "{text:?} comes back");
            (Err(Memory), 0)
        }
    }
}

/// Each allocation of a whole parse fails in turn: only the input is returned.
#[test]
fn recoverable_parse_refused(rt: HostRuntime) {
    let alloc = rt.alloc();
    let to_comma = || take_till(0.., ',').void();
    refused_in_turn(
        &rt,
        "what is left",
        alloc,
        |heap| output_of(&rt, heap, Digit1, "12ab"),
        (Ok(Some("12")), 1),
    );
    refused_in_turn(
        &rt,
        "retry_after",
        alloc,
        |heap| output_of(&rt, heap, Digit1.retry_after((to_comma(), ',').void()), "ab,12"),
        (Ok(Some("12")), 1),
    );
    refused_in_turn(
        &rt,
        "retry_after, not recovered",
        alloc,
        |heap| output_of(&rt, heap, Digit1.retry_after(to_comma()), ",1"),
        (Ok(None), 1),
    );
    refused_in_turn(
        &rt,
        "resume_after",
        alloc,
        |heap| output_of(&rt, heap, (Digit1.resume_after(to_comma()), ',', Digit1), "x,2"),
        (Ok(Some((None, ',', "2"))), 1),
    );
    // After a branch that is out of memory the next one is not run.
    refused_in_turn(
        &rt,
        "a choice",
        alloc,
        |heap| {
            let first = (Digit1.resume_after(to_comma()), ';').void();
            output_of(&rt, heap, alt((first, Rest.void())), "x,")
        },
        (Ok(Some(())), 1),
    );
    refused_in_turn(
        &rt,
        "many errors",
        alloc,
        |heap| {
            let digits = Digit1.retry_after((to_comma(), ',').void());
            output_of(&rt, heap, digits, "a,b,c,d,e,f,g,h,i,1x")
        },
        (Ok(Some("1")), 10),
    );
}

/// Without errors nothing is recorded, so nothing is allocated.
#[test]
fn recoverable_parse_that_takes_no_memory(rt: HostRuntime) {
    let heap = Refusing::always_from(rt.alloc(), 0);
    let skip = take_till(0.., ',').void();
    let got = output_of(&rt, &heap, Digit1.retry_after(skip), "12");
    assert_eq!(rt; got, (Ok(Some("12")), 0), "a parse without errors");
    assert!(rt; !heap.met(), "a parse without errors asks for no memory");
}
