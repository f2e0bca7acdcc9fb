//! Grammars of one character an item, given by tables of operators.
use crate::shape::Shape;
use std::alloc::Allocator;
use stream_errors::parser_error::ParserError;
use streams::needed::Needed;
use streams::partial::Partial;
use streams::stream::{Stream, StreamIsPartial};
use test_support::outcomes::{Outcome, outcome_of};
use test_support::rows::Modal;
use winnow_core::parser::Parser;
use winnow_expression::combinator::{FoldBinary, FoldUnary, Infix, Postfix, Prefix, expression};
use winnow_token::token::impls::Any;

/// An operator: its character and its power.
#[derive(Clone, Copy)]
pub(crate) enum Operator {
    Prefix(char, i64),
    Postfix(char, i64),
    Left(char, i64),
    Right(char, i64),
    Neither(char, i64),
}

/// The operators of a grammar, whose operands are digits.
pub(crate) type Table = &'static [Operator];

/// An operator that writes itself and its operands.
#[derive(Clone, Copy)]
pub(crate) struct Writes(pub(crate) char);

/// A postfix operator that does.
#[derive(Clone, Copy)]
pub(crate) struct WritesBehind(char);

impl<I: Stream, E: ParserError<I>> FoldUnary<I, Shape, E> for Writes {
    ghost folds = { tt };

    ghost leaves_ends = { tt };

    fn apply(&self, input: &mut I, operand: Shape) -> Result<Shape, E> {
        Ok(Shape::before(self.0, &operand))
    }
}

impl<I: Stream, E: ParserError<I>> FoldUnary<I, Shape, E> for WritesBehind {
    ghost folds = { tt };

    ghost leaves_ends = { tt };

    fn apply(&self, input: &mut I, operand: Shape) -> Result<Shape, E> {
        Ok(Shape::behind(self.0, &operand))
    }
}

impl<I: Stream, E: ParserError<I>> FoldBinary<I, Shape, E> for Writes {
    ghost folds = { tt };

    ghost leaves_ends = { tt };

    fn apply(&self, input: &mut I, left: Shape, right: Shape) -> Result<Shape, E> {
        Ok(Shape::between(self.0, &left, &right))
    }
}

pub(crate) fn operand_of(symbol: char) -> Option<Shape> {
    if symbol.is_ascii_digit() { Some(Shape::leaf(symbol)) } else { None }
}

pub(crate) fn prefix_of(table: Table, symbol: char) -> Option<Prefix<Writes>> {
    for operator in table {
        if let Operator::Prefix(own, power) = *operator {
            if own == symbol {
                return Some(Prefix(power, Writes(symbol)));
            }
        }
    }
    None
}

pub(crate) fn postfix_of(table: Table, symbol: char) -> Option<Postfix<WritesBehind>> {
    for operator in table {
        if let Operator::Postfix(own, power) = *operator {
            if own == symbol {
                return Some(Postfix(power, WritesBehind(symbol)));
            }
        }
    }
    None
}

pub(crate) fn infix_of(table: Table, symbol: char) -> Option<Infix<Writes>> {
    for operator in table {
        match *operator {
            Operator::Left(own, power) => {
                if own == symbol {
                    return Some(Infix::Left(power, Writes(symbol)));
                }
            }
            Operator::Right(own, power) => {
                if own == symbol {
                    return Some(Infix::Right(power, Writes(symbol)));
                }
            }
            Operator::Neither(own, power) => {
                if own == symbol {
                    return Some(Infix::Neither(power, Writes(symbol)));
                }
            }
            Operator::Prefix(_, _) | Operator::Postfix(_, _) => {}
        }
    }
    None
}

/// Parses an expression of a table at a level, and returns the tree as it is written.
pub(crate) fn read<I: StreamIsPartial<Token = char>, A: Allocator + Copy>(
    alloc: A,
    table: Table,
    level: i64,
    input: I,
) -> Outcome<Shape, I> {
    let mut parser = expression(alloc, Any.verify_map(operand_of))
        .prefix(Any.verify_map(move |symbol: char| prefix_of(table, symbol)))
        .postfix(Any.verify_map(move |symbol: char| postfix_of(table, symbol)))
        .infix(Any.verify_map(move |symbol: char| infix_of(table, symbol)))
        .current_precedence_level(level);
    outcome_of::<I, Shape, Modal, _>(&mut parser, input)
}
