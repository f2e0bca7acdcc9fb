//! Expressions over text, and the same ones over text that may be cut and is complete.
use crate::grammar::{Writes, operand_of};
use crate::shape::Shape;
use stream_errors::parser_error::ParserError;
use streams::partial::Partial;
use test_support::outcomes::Ending::{Fails, Takes};
use test_support::outcomes::Kind::Backtrack;
use test_support::rows::{Modal, like_ends};
use winnow_core::parser::Parser;
use winnow_expression::combinator::{Infix, Postfix, Prefix, expression};
use winnow_token::token::impls::Any;

#[test]
fn expression_of_like_parts(rt: HostRuntime) {
    for (text, want) in [
        ("-1+2+3;", Takes(6)),
        ("1+2", Takes(3)),
        ("1!+-2!", Takes(6)),
        ("1+", Fails(Backtrack, 2)),
        ("1+;", Fails(Backtrack, 2)),
        (";", Fails(Backtrack, 0)),
    ] {
        let first = expression(rt.alloc(), Any.verify_map(operand_of))
            .prefix('-'.value(Prefix(12, Writes('-'))))
            .postfix('!'.value(Postfix(13, Writes('!'))))
            .infix('+'.value(Infix::Left(5, Writes('+'))));
        let like = expression(rt.alloc(), Any.verify_map(operand_of))
            .prefix('-'.value(Prefix(12, Writes('-'))))
            .postfix('!'.value(Postfix(13, Writes('!'))))
            .infix('+'.value(Infix::Left(5, Writes('+'))));
        let both = (first, like);
        like_ends::<&str, Partial<&str>, Shape, Modal, _, _>(&rt, "expression", text, both, want);
    }
}

#[test]
fn operators_that_are_like(rt: HostRuntime) {
    let both = (Prefix(3, Writes('-')), Prefix(3, Writes('-')));
    like_ends::<&str, Partial<&str>, Prefix<Writes>, Modal, _, _>(&rt, "Prefix", "a", both, Takes(0));
    let both = (Postfix(3, Writes('!')), Postfix(3, Writes('!')));
    like_ends::<&str, Partial<&str>, Postfix<Writes>, Modal, _, _>(
        &rt,
        "Postfix",
        "a",
        both,
        Takes(0),
    );
    let both = (Infix::Left(3, Writes('+')), Infix::Left(3, Writes('+')));
    like_ends::<&str, Partial<&str>, Infix<Writes>, Modal, _, _>(&rt, "Infix", "a", both, Takes(0));
}
