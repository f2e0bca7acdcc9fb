//! The kinds of the errors that are made, joined and extended.
use std::process::Abort;
use stream_errors::context_error::ContextError;
use stream_errors::empty::EmptyError;
use stream_errors::input_error::InputError;
use stream_errors::mode::ErrMode;
use stream_errors::parser_error::ParserError;
use streams::needed::Needed;
use streams::stream::Stream;

/// Checks whether the error is a backtrack, incomplete, or out of memory.
fn has<I: Stream, E: ParserError<I>>(rt: &impl Abort, row: &str, error: E, want: [bool; 3]) {
    let got = [
        error.is_backtrack(),
        error.is_incomplete(),
        error.is_memory(),
    ];
    assert_eq!(rt; got, want, "{row}");
}

const BACKTRACKS: [bool; 3] = [true, false, false];

const CUTS: [bool; 3] = [false, false, false];

const IS_INCOMPLETE: [bool; 3] = [false, true, false];

const WANTS_MEMORY: [bool; 3] = [false, false, true];

/// All kinds of a plain type: an assert error and an incomplete one backtrack.
fn is_plain<I: Stream, E: ParserError<I>>(rt: &impl Abort, input: I) {
    has::<I, E>(rt, "from_input", E::from_input(&input), BACKTRACKS);
    has::<I, E>(rt, "assert", E::assert(&input, "why"), BACKTRACKS);
    let incomplete = E::incomplete(&input, Needed::Unknown);
    has::<I, E>(rt, "incomplete", incomplete, BACKTRACKS);
    has::<I, E>(rt, "no_memory", E::no_memory(&input), WANTS_MEMORY);
    let wants = E::no_memory(&input).or(E::from_input(&input));
    has::<I, E>(rt, "or memory", wants, WANTS_MEMORY);
    let joined = E::from_input(&input).or(E::from_input(&input));
    let start = input.checkpoint();
    has::<I, E>(rt, "append", joined.append(&input, &start), BACKTRACKS);
}

/// All kinds of a type with a mode.
fn is_modal<I: Stream, E: ParserError<I>>(rt: &impl Abort, input: I) {
    has::<I, E>(rt, "from_input", E::from_input(&input), BACKTRACKS);
    has::<I, E>(rt, "assert", E::assert(&input, "why"), CUTS);
    has::<I, E>(rt, "no_memory", E::no_memory(&input), WANTS_MEMORY);
    let missing = E::incomplete(&input, Needed::new(3));
    assert_eq!(rt; missing.needed(), Some(Needed::new(3)));
    has::<I, E>(rt, "incomplete", missing, IS_INCOMPLETE);
}

/// Pairs of kinds, merged: incomplete takes precedence over cut, cut over backtrack, and out of
/// memory over all.
fn joined<I: Stream, E: ParserError<I>>(rt: &impl Abort, input: I) {
    let back = || E::from_input(&input);
    let cut = || E::assert(&input, "why");
    let short = |units: usize| E::incomplete(&input, Needed::new(units));
    has::<I, E>(rt, "backtrack, cut", back().or(cut()), CUTS);
    has::<I, E>(rt, "cut, backtrack", cut().or(back()), CUTS);
    has::<I, E>(rt, "cut, incomplete", cut().or(short(1)), IS_INCOMPLETE);
    has::<I, E>(
        rt,
        "cut, memory",
        cut().or(E::no_memory(&input)),
        WANTS_MEMORY,
    );
    let wants = E::no_memory(&input).or(short(1));
    has::<I, E>(rt, "memory, incomplete", wants, WANTS_MEMORY);
    assert_eq!(rt;
        short(1).or(short(2)).needed(),
        Some(Needed::new(1)),
        "two incomplete"
    );
}

#[test]
fn parser_error(rt: HostRuntime) {
    let input = b"ab".as_slice();
    is_plain::<&[u8], EmptyError>(&rt, input);
    is_plain::<&[u8], InputError<&[u8]>>(&rt, input);
    is_plain::<&[u8], ContextError<&str>>(&rt, input);
    is_modal::<&[u8], ErrMode<EmptyError>>(&rt, input);
    is_modal::<&[u8], ErrMode<ContextError<&str>>>(&rt, input);
    joined::<&[u8], ErrMode<EmptyError>>(&rt, input);
    assert_eq!(rt; InputError::at(7u8).input, 7);
}
