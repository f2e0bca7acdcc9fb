//! Tokens of a lexer: one that is only wanted, and one out of which something is taken.

use winnow::error::{EmptyError, ErrMode};
use winnow::prelude::*;
use winnow::stream::{Pred, TokenSlice};
use winnow::token::impls::Any;
use winnow::token::one_of;

/// A token of a sum.
#[derive(Clone, Copy, Debug, PartialEq, Eq)]
pub enum Token {
    /// A number.
    Number(u64),
    /// The sign between two numbers.
    Plus,
}

/// Whether a token is a plus.
fn is_plus(token: &Token) -> bool {
    match token {
        Token::Plus => true,
        Token::Number(_) => false,
    }
}

/// The number that a token is.
fn number_of(token: &Token) -> Option<u64> {
    match token {
        Token::Number(number) => Some(*number),
        Token::Plus => None,
    }
}

/// Reads a plus.
pub fn read_plus<'t>(input: &mut TokenSlice<'t, Token>) -> Result<&'t Token, ErrMode<EmptyError>> {
    one_of(Pred(|token: &Token| is_plus(token))).parse_next(input)
}

/// Reads a number.
pub fn read_number(input: &mut TokenSlice<Token>) -> Result<u64, ErrMode<EmptyError>> {
    Any.verify_map(number_of).parse_next(input)
}

#[test]
fn tokens(rt: HostRuntime) {
    let mut input = TokenSlice::new(&[Token::Number(7), Token::Plus]);
    assert!(rt; read_plus(&mut input).is_err());
    assert_eq!(rt; read_number(&mut input).ok(), Some(7));
    assert!(rt; read_number(&mut input).is_err());
    assert_eq!(rt; read_plus(&mut input).ok(), Some(&Token::Plus));
    assert!(rt; read_plus(&mut input).is_err());
}
