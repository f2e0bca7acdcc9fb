//! Operators as parsers, by themselves and after their signs, on every prefix of samples.
use crate::samples::settles_from;
use test_support::outcomes::Kind::Backtrack;
use winnow_core::parser::Parser;
use winnow_expression::combinator::{Infix, Postfix, Prefix};

/// The side, the power and the fold of an infix.
fn parts_of(infix: Infix<u8>) -> (char, i64, u8) {
    match infix {
        Infix::Left(power, fold) => ('l', power, fold),
        Infix::Right(power, fold) => ('r', power, fold),
        Infix::Neither(power, fold) => ('n', power, fold),
    }
}

#[test]
fn prefix_and_postfix_on_all_cuts(rt: HostRuntime) {
    let prefix = Prefix(12, 7_u8).map(|it: Prefix<u8>| (it.0, it.1));
    settles_from(&rt, "Prefix", prefix, b"-1", (0, Ok((12, 7)), 0));
    let prefix = (b'-', Prefix(12, 7_u8)).map(|it: (u8, Prefix<u8>)| (it.1.0, it.1.1));
    settles_from(&rt, "Prefix", prefix, b"-1", (1, Ok((12, 7)), 1));
    let postfix = (Postfix(13, 8_u8), b'!').map(|it: (Postfix<u8>, u8)| (it.0.0, it.0.1));
    settles_from(&rt, "Postfix", postfix, b"!+", (1, Ok((13, 8)), 1));
    let postfix = (Postfix(13, 8_u8), b'!').map(|it: (Postfix<u8>, u8)| (it.0.0, it.0.1));
    settles_from(&rt, "Postfix", postfix, b"+!", (1, Err(Backtrack), 0));
}

#[test]
fn infix_on_all_cuts(rt: HostRuntime) {
    for (infix, want) in [
        (Infix::Left(5, 1_u8), ('l', 5, 1)),
        (Infix::Right(9, 2_u8), ('r', 9, 2)),
        (Infix::Neither(3, 3_u8), ('n', 3, 3)),
    ] {
        let parser = (b'*', infix).map(|it: (u8, Infix<u8>)| parts_of(it.1));
        settles_from::<(char, i64, u8), _>(&rt, "Infix", parser, b"*1", (1, Ok(want), 1));
    }
}
