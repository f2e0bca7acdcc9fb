//! Errors that keep contexts, and errors that are made of others.
use std::alloc::Global;
use std::process::Abort;
use stream_errors::context::AddContext;
use stream_errors::context_error::ContextError;
use stream_errors::control::ControlError;
use stream_errors::empty::EmptyError;
use stream_errors::external::FromExternalError;
use stream_errors::input_error::InputError;
use stream_errors::mode::ErrMode;
use stream_errors::parser_error::ParserError;
use streams::needed::Needed;
use test_support::outcomes::Kind::{self, Backtrack, Cut, Incomplete, Memory};
use test_support::outcomes::kind_of;
use test_support::refusing::Refusing;

type Bytes = &'static [u8];

const INPUT: Bytes = b"ab";

/// The contexts are in the order in which they were added, the innermost first.
#[test]
fn context_error(rt: HostRuntime) {
    let mut error: ContextError<&str> = ContextError::new();
    assert_eq!(rt; error.context().len(), 0, "new");
    assert_eq!(rt; kind_of::<Bytes, _>(&error), Backtrack, "new");
    error.push(rt.alloc(), "n");
    assert_eq!(rt; error.context(), ["n"].as_slice(), "push");
    error.push(rt.alloc(), "m");
    assert_eq!(rt; error.context(), ["n", "m"].as_slice(), "push twice");
    assert_eq!(rt; kind_of::<Bytes, _>(&error), Backtrack, "push");
    assert_eq!(rt; error == ContextError::new(), false, "contexts that differ");
    match ParserError::<Bytes>::into_inner(error) {
        Ok(inner) => assert_eq!(rt; inner.context(), ["n", "m"].as_slice(), "into_inner"),
        Err(_) => assert!(rt; false, "into_inner gives the error back"),
    }
    let other: ContextError<&str> = ContextError::new();
    assert_eq!(rt; other == ContextError::new(), true, "no contexts");
    assert_eq!(rt; ParserError::<Bytes>::needed(&other), None, "needed");
}

/// If the list cannot grow, the contexts are kept, and the error is out of memory from then on.
#[test]
fn context_error_without_memory(rt: HostRuntime) {
    for n in 0..20u64 {
        let heap = Refusing::once(rt.alloc(), n);
        let mut error: ContextError<u64, &Refusing<Global>> = ContextError::new();
        let mut kept = 0;
        while !heap.met() && kept < 10 {
            error.push(&heap, kept);
            if !heap.met() {
                kept += 1;
            }
        }
        assert_eq!(rt;
            error.context().len() as u64,
            kept,
            "contexts, request {n} refused"
        );
        for (number, context) in (0..kept).zip(error.context().iter()) {
            assert_eq!(rt; *context, number, "contexts, request {n} refused");
        }
        if !heap.met() {
            assert_eq!(rt;
                kind_of::<Bytes, _>(&error),
                Backtrack,
                "contexts, with memory"
            );
            assert!(rt; n > 0, "contexts ask for memory");
            return;
        }
        assert_eq!(rt;
            kind_of::<Bytes, _>(&error),
            Memory,
            "contexts, request {n} refused"
        );
        error.push(&heap, kept);
        let kind = kind_of::<Bytes, _>(&error);
        assert_eq!(rt;
            kind,
            Memory,
            "a context more, behind a refusal of request {n}"
        );
    }
    assert!(rt; false, "contexts meet refusals without end");
}

/// Adds a context to an error, and checks its kind.
fn told<E>(rt: &impl Abort, alloc: Global, row: &str, error: E, want: Kind) -> E
where
    E: ParserError<Bytes> + AddContext<Bytes, &'static str, Global>,
{
    let start = INPUT;
    let told = error.add_context(alloc, &INPUT, &start, "n");
    assert_eq!(rt; kind_of::<Bytes, E>(&told), want, "add_context, {row}");
    told
}

#[test]
fn add_context(rt: HostRuntime) {
    let alloc = rt.alloc();
    told(
        &rt,
        alloc,
        "EmptyError",
        <EmptyError as ParserError<Bytes>>::from_input(&INPUT),
        Backtrack,
    );
    told(
        &rt,
        alloc,
        "EmptyError",
        <EmptyError as ParserError<Bytes>>::no_memory(&INPUT),
        Memory,
    );
    let error = told(&rt, alloc, "ControlError", ControlError::Invalid, Backtrack);
    assert_eq!(rt; error, ControlError::Invalid, "add_context, ControlError");
    let error = told(&rt, alloc, "ControlError", ControlError::NoMemory, Memory);
    assert_eq!(rt; error, ControlError::NoMemory, "add_context, ControlError");
    let error = told(&rt, alloc, "InputError", InputError::at(INPUT), Backtrack);
    assert_eq!(rt; error.input, INPUT, "add_context, the input of InputError");
    told(
        &rt,
        alloc,
        "InputError",
        InputError::no_memory(&INPUT),
        Memory,
    );
    let error: ContextError<&str> = told(
        &rt,
        alloc,
        "ContextError",
        ContextError::new(),
        Backtrack,
    );
    assert_eq!(rt;
        error.context(),
        ["n"].as_slice(),
        "add_context, ContextError"
    );
    let error = told(&rt, alloc, "ContextError, again", error, Backtrack);
    assert_eq!(rt;
        error.context(),
        ["n", "n"].as_slice(),
        "add_context, ContextError"
    );
    for (row, error, want) in [
        (
            "a backtracking error",
            ErrMode::Backtrack(ContextError::new()),
            Backtrack,
        ),
        ("a cutting error", ErrMode::Cut(ContextError::new()), Cut),
    ] {
        match told(&rt, alloc, row, error, want) {
            ErrMode::Backtrack(inner) | ErrMode::Cut(inner) => {
                let inner: ContextError<&str> = inner;
                assert_eq!(rt; inner.context(), ["n"].as_slice(), "add_context, {row}");
            }
            ErrMode::Incomplete(_) => assert!(rt; false, "add_context, {row} is incomplete"),
        }
    }
    let error: ErrMode<ContextError<&str>> = ErrMode::Incomplete(Needed::new(3));
    told(
        &rt,
        alloc,
        "an incomplete error",
        error,
        Incomplete(Needed::new(3)),
    );
    let error: ErrMode<EmptyError> = ParserError::<Bytes>::no_memory(&INPUT);
    told(&rt, alloc, "want of memory", error, Memory);
}

/// An error that is made of another backtracks.
fn made<E: ParserError<Bytes> + FromExternalError<Bytes, &'static str>>(
    rt: &impl Abort,
    row: &str,
) -> E {
    let error = E::from_external_error(&INPUT, "not a day");
    assert_eq!(rt;
        kind_of::<Bytes, E>(&error),
        Backtrack,
        "from_external_error, {row}"
    );
    error
}

#[test]
fn from_external_error(rt: HostRuntime) {
    let _error: EmptyError = made(&rt, "EmptyError");
    let error: ControlError = made(&rt, "ControlError");
    assert_eq!(rt; error, ControlError::Invalid, "from_external_error, ControlError");
    let error: InputError<Bytes> = made(&rt, "InputError");
    assert_eq!(rt;
        error.input,
        INPUT,
        "from_external_error, the input of InputError"
    );
    let error: ContextError<&str> = made(&rt, "ContextError");
    assert_eq!(rt;
        error.context().len(),
        0,
        "from_external_error, ContextError"
    );
    let error: ErrMode<InputError<Bytes>> = made(&rt, "ErrMode");
    assert_eq!(rt;
        error,
        ErrMode::Backtrack(InputError::at(INPUT)),
        "from_external_error"
    );
    let _error: ErrMode<EmptyError> = made(&rt, "ErrMode of EmptyError");
    let _error: ErrMode<ContextError<&str>> = made(&rt, "ErrMode of ContextError");
}
