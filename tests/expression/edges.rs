//! Operators and operands that consume nothing, and operators as parsers of themselves.
use crate::grammar::{Writes, operand_of};
use crate::shape::Shape;
use streams::needed::Needed;
use streams::partial::Partial;
use streams::stream::Stream;
use test_support::outcomes::Kind::{Backtrack, Cut, Incomplete};
use test_support::outcomes::{Kind, Outcome, outcome_of};
use test_support::rows::{Modal, same};
use winnow_comb::combinator::opt;
use winnow_core::parser::Parser;
use winnow_expression::combinator::{Infix, Postfix, Prefix, expression};
use winnow_token::token::impls::Any;

/// The fold of the rows: it writes a point.
const POINT: Writes = Writes('.');

/// A postfix, and an infix, that consume nothing.
#[test]
fn expression_of_operators_over_nothing(rt: HostRuntime) {
    for (level, text, want, rest) in [
        (0, "1", Ok("1"), ""),
        (0, "1a", Err(Cut), "a"),
        (4, "1a", Ok("1"), "a"),
    ] {
        let mut parser = expression(rt.alloc(), Any.verify_map(operand_of))
            .postfix(Postfix(3, POINT))
            .current_precedence_level(level);
        let got = outcome_of::<&str, Shape, Modal, _>(&mut parser, text);
        same(&rt, "a bare postfix", text, got, (want.map(Shape::of), rest));
    }
    let mut parser = expression(rt.alloc(), Any.verify_map(operand_of)).infix(Infix::Left(3, POINT));
    let got = outcome_of::<&str, Shape, Modal, _>(&mut parser, "123");
    same(&rt, "a bare infix", "123", got, (Ok(Shape::of("((1.2).3)")), ""));
    let mut parser = expression(rt.alloc(), Any.verify_map(operand_of)).prefix(Prefix(3, POINT));
    let got = outcome_of::<&str, Shape, Modal, _>(&mut parser, "a");
    same(&rt, "a bare prefix", "a", got, (Err(Cut), "a"));
}

/// An operand that may be empty, with an infix that consumes nothing, of each side.
#[test]
fn expression_of_nothing(rt: HostRuntime) {
    for infix in [Infix::Left(3, POINT), Infix::Right(3, POINT), Infix::Neither(3, POINT)] {
        let operand = opt(Any.verify_map(operand_of)).map(|shape: Option<Shape>| match shape {
            Some(shape) => shape,
            None => Shape::of("_"),
        });
        let mut parser = expression(rt.alloc(), operand).infix(infix);
        let got = outcome_of::<&str, Shape, Modal, _>(&mut parser, "a");
        same(&rt, "an empty operand", "a", got, (Err(Cut), "a"));
    }
}

/// Operators are parsers that consume nothing.
#[test]
fn operators_as_parsers(rt: HostRuntime) {
    let mut prefix = Prefix(3, Writes('-'));
    let (answer, rest) = outcome_of::<&str, Prefix<Writes>, Modal, _>(&mut prefix, "a");
    same(&rt, "Prefix", "a", (answer.map(|it| (it.0, it.1.0)), rest), (Ok((3, '-')), "a"));
    let mut postfix = Postfix(4, Writes('!'));
    let (answer, rest) = outcome_of::<&str, Postfix<Writes>, Modal, _>(&mut postfix, "a");
    same(&rt, "Postfix", "a", (answer.map(|it| (it.0, it.1.0)), rest), (Ok((4, '!')), "a"));
    let mut infix = Infix::Right(5, Writes('^'));
    let (answer, rest) = outcome_of::<&str, Infix<Writes>, Modal, _>(&mut infix, "a");
    let is_it = answer.map(|it| matches!(&it, Infix::Right(5, Writes('^'))));
    same(&rt, "Infix", "a", (is_it, rest), (Ok(true), "a"));
}

/// Operators of two characters on partial text that ends after their first character: `Incomplete`
/// is returned unchanged, at the offset of a postfix and at that of an infix.
#[test]
fn expression_on_cut_operators(rt: HostRuntime) {
    for (text, want, rest) in [
        ("1!", Err(Incomplete(Needed::Unknown)), "!"),
        ("1!!", Ok("(!1)"), ""),
        ("1*", Err(Incomplete(Needed::Unknown)), "*"),
        ("1!!*", Err(Incomplete(Needed::Unknown)), "*"),
        ("1**", Err(Incomplete(Needed::new(1))), ""),
        ("1**2!", Err(Incomplete(Needed::Unknown)), "!"),
        ("1**2;", Ok("(1*2)"), ";"),
    ] {
        let mut parser = expression(rt.alloc(), Any.verify_map(operand_of))
            .postfix("!!".value(Postfix(9, Writes('!'))))
            .infix("**".value(Infix::Left(5, Writes('*'))));
        let got = outcome_of::<_, Shape, Modal, _>(&mut parser, Partial::new(text));
        let want = (want.map(Shape::of), Partial::new(rest));
        same(&rt, "expression, cut", text, got, want);
    }
}

/// An expression without operators is its operand.
#[test]
fn expression_alone(rt: HostRuntime) {
    for (text, want, rest) in [("12", Ok("1"), "2"), ("a", Err(Backtrack), "a")] {
        let mut parser = expression(rt.alloc(), Any.verify_map(operand_of));
        let got = outcome_of::<&str, Shape, Modal, _>(&mut parser, text);
        same(&rt, "expression", text, got, (want.map(Shape::of), rest));
    }
}
