//! A sign and numbers, from the tokens of a lexer.
use example_callers::lexed::Token::{Minus, Number, Plus};
use example_callers::lexed::signed_numbers;
use winnow::error::EmptyError;
use winnow::stream::TokenSlice;

#[test]
fn signs_and_numbers(rt: HostRuntime) {
    let tokens = [Minus, Number(7), Number(8), Plus, Number(7)];
    let mut input = TokenSlice::new(&tokens);
    let numbers = [Number(7), Number(8)];
    assert_eq!(rt; signed_numbers(&mut input), Ok((&Minus, numbers.as_slice())));
    assert_eq!(rt; input.as_slice(), [Plus, Number(7)].as_slice());
    let last = [Number(7)];
    assert_eq!(rt; signed_numbers(&mut input), Ok((&Plus, last.as_slice())));
    assert!(rt; input.as_slice().is_empty());
    assert!(rt; signed_numbers(&mut input).is_err());
}

#[test]
fn tokens_without_a_sign_or_a_number(rt: HostRuntime) {
    for tokens in [
        [Number(7), Plus].as_slice(),
        [Plus].as_slice(),
        [Plus, Minus, Number(7)].as_slice(),
        [].as_slice(),
    ] {
        let mut input = TokenSlice::new(tokens);
        let got: Result<_, EmptyError> = signed_numbers(&mut input);
        assert!(rt; got.is_err());
    }
}
