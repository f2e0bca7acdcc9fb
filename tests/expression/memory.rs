//! Want of memory, and deep expressions.
use crate::grammar::Operator::{Left, Postfix, Prefix};
use crate::grammar::{Table, read};
use crate::shape::Shape;
use test_support::outcomes::Kind::Memory;
use test_support::refusing::{Refusing, refused_in_turn};
use test_support::rows::same;

const TABLE: Table = &[Prefix('-', 12), Postfix('!', 13), Left('+', 5), Left('*', 7)];

#[test]
fn expression_wants_memory(rt: HostRuntime) {
    refused_in_turn(
        &rt,
        "expression",
        rt.alloc(),
        |heap| {
            let (answer, rest) = read::<&str, _>(heap, TABLE, 0, "-3!+2*4");
            (answer, rest.len())
        },
        (Ok(Shape::of("((-(3!))+(2*4))")), 0),
    );
}

/// A call that accepts no prefix and no infix does not allocate; other calls leave the input after
/// the operator whose allocation failed.
#[test]
fn expression_takes_memory_for_open_operators(rt: HostRuntime) {
    let heap = Refusing::always_from(rt.alloc(), 0);
    let got = read::<&str, _>(&heap, TABLE, 0, "7!");
    same(&rt, "expression", "7!", got, (Ok(Shape::of("(7!)")), ""));
    assert!(rt; !heap.met());
    let got = read::<&str, _>(&heap, TABLE, 0, "-1");
    same(&rt, "expression", "-1", got, (Err(Memory), "1"));
    let got = read::<&str, _>(&heap, TABLE, 0, "1+2");
    same(&rt, "expression", "1+2", got, (Err(Memory), "2"));
}
