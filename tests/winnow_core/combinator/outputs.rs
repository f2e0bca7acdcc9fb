//! Adapters that change the output.
use std::alloc::Global;
use std::fmt::Debug;
use std::process::Abort;
use stream_errors::empty::EmptyError;
use stream_errors::parser_error::ParserError;
use stream_searches::compare::Compare;
use streams::needed::Needed;
use streams::partial::Partial;
use streams::stream::Stream;
use test_support::outcomes::Kind::{Backtrack, Incomplete, Memory};
use test_support::outcomes::outcome_of;
use test_support::refusing::Refusing;
use test_support::rows::{Modal, answers, answers_each, answers_on_cut, same};
use test_support::texts::OfText;
use test_support::{at_bytes, at_text_also_plainly};
use winnow_core::combinator::impls::{DefaultValue, OutputInto, Value, WithTaken};
use winnow_core::parser::Parser;
use winnow_token::token::impls::Any;

fn value_at<I: OfText + Compare<char>, E: ParserError<I>>(rt: &impl Abort) {
    let seven: Value<char, I, char, u8, E> = 'a'.value(7);
    answers::<I, u8, E, _>(rt, "value", seven, "ab", Ok(7), "b");
    let seven: Value<(char, char), I, (char, char), u8, E> = ('a', 'b').value(7);
    answers::<I, u8, E, _>(rt, "value", seven, "ac", Err(Backtrack), "c");
}

#[test]
fn value(rt: HostRuntime) {
    at_text_also_plainly!(rt; value_at);
}

/// The first clone of a list fails to allocate, the next one succeeds. A failing call clones
/// nothing.
#[test]
fn value_without_memory(rt: HostRuntime) {
    type List<'h> = Vec<u8, &'h Refusing<Global>>;
    let heap = Refusing::once(rt.alloc(), 1);
    let mut list: List<'_> = Vec::new(&heap);
    assert!(rt; list.push(7).is_ok(), "the list");
    let mut listed = Any.value(list);
    let (answer, rest) = outcome_of::<&str, List<'_>, EmptyError, _>(&mut listed, "");
    same(
        &rt,
        "value",
        "",
        (answer.err(), rest),
        (Some(Backtrack), ""),
    );
    assert!(rt; !heap.met(), "a run that fails asks for no memory");
    let (answer, _) = outcome_of::<&str, List<'_>, EmptyError, _>(&mut listed, "ab");
    same(
        &rt,
        "value, refused memory",
        "ab",
        answer.err(),
        Some(Memory),
    );
    assert!(rt; heap.met(), "the clone asks for memory");
    let (answer, rest) = outcome_of::<&str, List<'_>, EmptyError, _>(&mut listed, "ab");
    same(
        &rt,
        "value, with memory",
        "ab",
        (answer.err(), rest),
        (None, "b"),
    );
}

fn default_value_at<I: OfText + Compare<char>, E: ParserError<I>>(rt: &impl Abort) {
    let none: DefaultValue<char, I, char, u32, E> = 'a'.default_value();
    let rows = [("ab", Ok(0), "b"), ("b", Err(Backtrack), "b")];
    answers_each::<I, u32, E, _>(rt, "default_value", none, &rows);
}

#[test]
fn default_value(rt: HostRuntime) {
    at_text_also_plainly!(rt; default_value_at);
}

fn output_into_at<I: OfText + Stream<Token = char>, E: ParserError<I>>(rt: &impl Abort) {
    let number: OutputInto<Any, I, char, u32, E> = Any.output_into();
    let rows = [("éa", Ok(233), "a"), ("", Err(Backtrack), "")];
    answers_each::<I, u32, E, _>(rt, "output_into", number, &rows);
}

#[test]
fn output_into(rt: HostRuntime) {
    at_text_also_plainly!(rt; output_into_at);
}

fn with_taken_at<I, E: ParserError<I>>(rt: &impl Abort)
where
    I: OfText + Stream<Token = char, Slice = &'static str>,
{
    let two: WithTaken<(Any, Any), I, (char, char), E> = (Any, Any).with_taken();
    let rows = [
        ("éab", Ok((('é', 'a'), "éa")), "b"),
        ("é", Err(Backtrack), ""),
    ];
    answers_each::<I, ((char, char), &str), E, _>(rt, "with_taken", two, &rows);
}

#[test]
fn with_taken(rt: HostRuntime) {
    at_text_also_plainly!(rt; with_taken_at);
}

/// The output by a function.
fn map_at<I, E: ParserError<I>>(rt: &impl Abort)
where
    I: OfText + Stream<Slice = &'static [u8]> + Compare<&'static [u8; 2]>,
{
    let length = b"ab".map(|slice: &[u8]| slice.len());
    answers::<I, usize, E, _>(rt, "map", length, "abc", Ok(2), "c");
}

#[test]
fn map(rt: HostRuntime) {
    at_bytes!(rt; map_at);
}

/// The closure is called where its parser succeeds, though a later one then fails, and its state
/// goes on to the next run.
#[test]
fn map_by_its_calls(rt: HostRuntime) {
    for (name, rows) in [
        (
            "map",
            [
                ("a", Err(Incomplete(Needed::new(1))), ""),
                ("ab", Ok((2, 'b')), ""),
            ]
            .as_slice(),
        ),
        ("map, afresh", [("ab", Ok((1, 'b')), "")].as_slice()),
    ] {
        let mut calls = 0u8;
        let counted = Any.map(move |_: char| {
            calls += 1;
            calls
        });
        let mut both = (counted, Any);
        for row in rows {
            answers_on_cut::<Partial<&str>, (u8, char), Modal, _>(&rt, name, &mut both, *row);
        }
    }
}

/// No output.
fn void_at<I: OfText + Compare<&'static [u8; 2]>, E: ParserError<I>>(rt: &impl Abort) {
    answers::<I, (), E, _>(rt, "void", b"ab".void(), "abc", Ok(()), "c");
}

#[test]
fn void(rt: HostRuntime) {
    at_bytes!(rt; void_at);
}

/// The slice that was taken.
fn take_at<I: OfText + Compare<u8>, E: ParserError<I>>(rt: &impl Abort)
where
    I::Slice: PartialEq + Debug,
{
    let slice = Ok(I::slice_of_text("ab"));
    answers::<I, I::Slice, E, _>(rt, "take", (b'a', b'b').take(), "abc", slice, "c");
}

#[test]
fn take(rt: HostRuntime) {
    at_bytes!(rt; take_at);
    answers::<&str, &str, Modal, _>(&rt, "take", ('a', 'b').take(), "abc", Ok("ab"), "c");
}
