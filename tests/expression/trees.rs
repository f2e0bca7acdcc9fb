//! The trees of rows.
use crate::grammar::Operator::{Left, Neither, Postfix, Prefix, Right};
use crate::grammar::{Table, infix_of, read};
use crate::shape::Shape;
use streams::partial::Partial;
use streams::needed::Needed;
use test_support::outcomes::Kind::{Backtrack, Incomplete};
use test_support::outcomes::{Kind, outcome_of};
use test_support::rows::{Modal, same};
use winnow_ascii::ascii::impls::Digit1;
use winnow_core::parser::Parser;
use winnow_expression::combinator::expression;
use winnow_token::token::impls::Any;

/// A table, a level, a text, the tree as it is written, and the rest.
type Row = (Table, i64, &'static str, &'static str, &'static str);

const ROWS: &[Row] = &[
    (
        &[Prefix('-', 1), Left('*', 7), Left('+', 5)],
        0,
        "2*-3+4",
        "(2*(-(3+4)))",
        "",
    ),
    (
        &[Right('^', 9), Left('*', 8)],
        0,
        "2^3*4",
        "((2^3)*4)",
        "",
    ),
    (
        &[Left('&', 3), Neither('=', 5)],
        0,
        "1&2=3=4",
        "(1&(2=3))",
        "=4",
    ),
    (&[Right('+', i64::MIN)], i64::MIN, "1+2+3", "(1+(2+3))", ""),
    (&[Neither('=', 5)], 0, "1=2=3", "(1=2)", "=3"),
    (
        &[Prefix('-', 5), Postfix('!', 3), Left('!', 9)],
        0,
        "-1!2",
        "((-1)!)",
        "2",
    ),
    (&[Left('+', 5)], 0, "1", "1", ""),
    (
        &[Neither('=', 5), Postfix('!', 3)],
        0,
        "1=2!=3",
        "((1=2)!)",
        "=3",
    ),
    (
        &[Neither('=', 5), Left('+', 7)],
        0,
        "1+2=3",
        "((1+2)=3)",
        "",
    ),
    (
        &[Left('&', 3), Neither('=', 5)],
        0,
        "1=2&3=4",
        "((1=2)&(3=4))",
        "",
    ),
    (
        &[Prefix('-', 1), Neither('=', 5)],
        0,
        "-1=2=3",
        "(-(1=2))",
        "=3",
    ),
    (&[Right('^', 5)], 0, "1^2^3", "(1^(2^3))", ""),
    (
        &[Right('^', 5), Left('-', 5)],
        0,
        "1^2-3",
        "(1^(2-3))",
        "",
    ),
    (
        &[Right('^', 5), Left('-', 5)],
        0,
        "1-2^3",
        "((1-2)^3)",
        "",
    ),
    (&[Left('+', i64::MAX)], 0, "1+2+3", "((1+2)+3)", ""),
    (
        &[Prefix('-', i64::MIN), Left('+', i64::MIN)],
        i64::MIN,
        "-1+2",
        "(-(1+2))",
        "",
    ),
    (&[Neither('=', i64::MAX)], 0, "1=2", "(1=2)", ""),
    (
        &[Prefix('-', 12), Left('+', 5), Left('*', 7)],
        0,
        "-3+-3*4",
        "((-3)+((-3)*4))",
        "",
    ),
    (&[Left('+', 5)], 6, "1+2", "1", "+2"),
    (&[Postfix('!', 3)], 4, "1!", "1", "!"),
];

#[test]
fn expression_trees(rt: HostRuntime) {
    for (table, level, text, tree, rest) in ROWS {
        let got = read::<&str, _>(rt.alloc(), table, *level, text);
        same(&rt, "expression", text, got, (Ok(Shape::of(tree)), *rest));
    }
}

/// Numbers of more than one digit, with operators between them.
#[test]
fn expression_of_long_numbers(rt: HostRuntime) {
    let rows: [(Table, &str, Result<&str, Kind>, &str); 4] = [
        (&[Right('^', 9), Left('*', 8)], "12^345*67", Ok("((12^345)*67)"), ""),
        (&[Left('&', 3), Neither('=', 5)], "10&23=345=4", Ok("(10&(23=345))"), "=4"),
        (&[Left('+', 5)], "12+", Err(Backtrack), ""),
        (&[Left('+', 5)], "12+34-5", Ok("(12+34)"), "-5"),
    ];
    for (table, text, want, rest) in rows {
        let number = Digit1.map(|digits: &str| Shape::of(digits));
        let mut parser = expression(rt.alloc(), number).infix(Any.verify_map(
            move |symbol: char| infix_of(table, symbol),
        ));
        let got = outcome_of::<&str, Shape, Modal, _>(&mut parser, text);
        same(&rt, "expression", text, got, (want.map(Shape::of), rest));
    }
}

/// An infix without its right operand backtracks at the end, where the operand does; cut, it needs
/// a token more, and an operand alone is one.
#[test]
fn expression_without_an_operand(rt: HostRuntime) {
    let table: Table = &[Left('+', 5)];
    let got = read::<&str, _>(rt.alloc(), table, 0, "1+");
    same(&rt, "expression", "1+", got, (Err(Backtrack), ""));
    let got = read::<Partial<&str>, _>(rt.alloc(), table, 0, Partial::new("1+"));
    let want = (Err(Incomplete(Needed::new(1))), Partial::new(""));
    same(&rt, "expression", "cut 1+", got, want);
    let got = read::<Partial<&str>, _>(rt.alloc(), table, 0, Partial::new("1"));
    let want = (Ok(Shape::of("1")), Partial::new(""));
    same(&rt, "expression", "cut 1", got, want);
}
