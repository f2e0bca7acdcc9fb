//! Streams and recovery.
use std::alloc::Global;
use winnow::ascii::impls::Digit1;
use winnow::error::{EmptyError, ErrMode, Needed};
use winnow::prelude::*;
use winnow::stream::{LocatingSlice, Pred, Recoverable, TokenSlice};
use winnow::token::impls::Rest;
use winnow::token::one_of;
use winnow::{Func, RecoverableParser};

type Fails = ErrMode<EmptyError>;

#[test]
fn tokens_are_wrapped(rt: HostRuntime) {
    let tokens = [3_u32, 4];
    let mut input = TokenSlice::new(tokens.as_slice());
    let read: Result<&u32, Fails> = one_of(Pred(|token: &u32| *token == 3)).parse_next(&mut input);
    assert_eq!(rt; read.ok().copied(), Some(3));
    assert_eq!(rt; input.as_slice(), [4_u32].as_slice());
}

#[test]
fn tokens_are_peeked(rt: HostRuntime) {
    let mut input = "ab";
    let start = input.checkpoint();
    assert_eq!(rt; input.next_token(), Some('a'));
    input.reset(&start);
    assert_eq!(rt; input, "ab");
}

#[test]
fn offsets_are_counted(rt: HostRuntime) {
    let mut input = LocatingSlice::new("12a");
    let read: Result<&str, Fails> = Digit1.parse_next(&mut input);
    assert_eq!(rt; read.ok(), Some("12"));
    assert_eq!(rt; input.current_token_start(), 2);
    assert_eq!(rt; *input.as_inner(), "a");
}

#[test]
fn recovery_allocates(rt: HostRuntime) {
    let read = RecoverableParser::<&str, &str, Fails, Fails, Global>::recoverable_parse(
        &mut Digit1,
        rt.alloc(),
        "12a",
    );
    match read {
        Ok((_, output, errors)) => {
            assert_eq!(rt; output, Some("12"));
            assert_eq!(rt; errors.len(), 1);
        }
        Err(_) => assert!(rt; false, "no memory"),
    }
    let stream: Recoverable<&str, EmptyError> = Recoverable::new(rt.alloc(), "ab");
    assert_eq!(rt; *stream.as_inner(), "ab");
}

fn asking(_input: &mut Recoverable<&str, Fails>) -> Result<char, Fails> {
    Err(ErrMode::Incomplete(Needed::new(2)))
}

#[test]
fn needs_become_backtracks(rt: HostRuntime) {
    let read = RecoverableParser::<&str, char, Fails, Fails, Global>::recoverable_parse(
        &mut Func(asking),
        rt.alloc(),
        "ab",
    );
    match read {
        Ok((_, None, errors)) => {
            assert!(rt; matches!(errors.as_slice(), [ErrMode::Backtrack(_)]));
        }
        _ => assert!(rt; false, "another result"),
    }
}

#[test]
fn recovery_is_a_trait(rt: HostRuntime) {
    let read = RecoverableParser::<&str, Option<&str>, Fails, Fails, Global>::recoverable_parse(
        &mut Digit1.resume_after(Rest.void()),
        rt.alloc(),
        "ab",
    );
    match read {
        Ok((_, output, errors)) => {
            assert_eq!(rt; output, Some(None));
            assert_eq!(rt; errors.len(), 1);
        }
        Err(_) => assert!(rt; false, "no memory"),
    }
}
