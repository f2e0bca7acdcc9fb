//! The macro `seq`, by what winnow's macro of this name returns.
#![tactic(auto)]

use winnow::ascii::impls::{Alpha1, DecUint, Digit1};
use winnow::combinator::{seq, terminated};
use winnow::error::{ErrMode, Needed};
use winnow::prelude::*;
use winnow::stream::Partial;
use winnow::token::impls::Any;

mod shapes {
    #[derive(Debug, PartialEq, Drop)]
    pub struct Point {
        pub x: u32,
        pub y: u32,
    }

    #[derive(Debug, PartialEq, Drop)]
    pub enum Shape {
        Dot(u32, u32),
        Circle { radius: u32 },
    }
}

use shapes::{Point, Shape};

fn point(input: &mut &str) -> ModalResult<Point> {
    seq!(Point { _: '(', x: DecUint, _: ',', y: DecUint, _: ')' }).parse_next(input)
}

fn dot(input: &mut &str) -> ModalResult<Shape> {
    seq!(shapes::Shape::Dot(DecUint, _: ',', DecUint,)).parse_next(input)
}

fn circle(input: &mut &str) -> ModalResult<Shape> {
    seq!(Shape::Circle { _: "o", radius: DecUint, }).parse_next(input)
}

fn pair(input: &mut &str) -> ModalResult<(u32, u32)> {
    seq!(_: '[', DecUint, _: (' ', ','), DecUint).parse_next(input)
}

#[test]
fn seq_of_a_struct(rt: HostRuntime) {
    let mut input = "(1,2);";
    assert_eq!(rt; point(&mut input), Ok(Point { x: 1, y: 2 }));
    assert_eq!(rt; input, ";");
    // the input is left where the part that failed left it
    let mut input = "(1;2)";
    assert!(rt; matches!(point(&mut input), Err(ErrMode::Backtrack(_))));
    assert_eq!(rt; input, ";2)");
    assert_eq!(rt; circle(&mut "o7"), Ok(Shape::Circle { radius: 7 }));
    assert!(rt; circle(&mut "o").is_err());
}

#[test]
fn seq_of_a_tuple(rt: HostRuntime) {
    assert_eq!(rt; dot(&mut "3,4"), Ok(Shape::Dot(3, 4)));
    assert!(rt; dot(&mut "3 4").is_err());
    assert_eq!(rt; pair(&mut "[3 ,4"), Ok((3, 4)));
    let mut input = "[3, 4";
    assert!(rt; pair(&mut input).is_err());
    assert_eq!(rt; input, ", 4");
}

fn partial(input: &mut Partial<&str>) -> ModalResult<Point> {
    seq!(Point { x: DecUint, _: ',', y: terminated(DecUint, ';') }).parse_next(input)
}

#[test]
fn seq_of_partial_input(rt: HostRuntime) {
    assert_eq!(rt; partial(&mut Partial::new("1,2;")), Ok(Point { x: 1, y: 2 }));
    let cut = partial(&mut Partial::new("1,2"));
    assert!(rt; matches!(cut, Err(ErrMode::Incomplete(Needed::Size(_)))));
}

fn letters(input: &mut &str) -> ModalResult<(char, char)> {
    seq!(Any, _: 'b', _: 'c', _: 'd', _: 'e', _: 'f', _: 'g', _: 'h', _: 'i', _: 'j', Any)
        .parse_next(input)
}

#[test]
fn seq_of_eleven(rt: HostRuntime) {
    assert_eq!(rt; letters(&mut "abcdefghijk"), Ok(('a', 'k')));
    assert!(rt; letters(&mut "abcdefghikk").is_err());
}

#[derive(Debug, PartialEq, Drop)]
struct Setting<'i> {
    name: &'i str,
    digits: &'i str,
}

fn setting<'i>(input: &mut &'i str) -> ModalResult<Setting<'i>> {
    seq!(Setting { name: Alpha1, _: '=', digits: Digit1 }).parse_next(input)
}

fn names<'i>(input: &mut &'i str) -> ModalResult<(&'i str, &'i str)> {
    seq!(Alpha1, _: ':', Alpha1).parse_next(input)
}

#[test]
fn seq_of_slices(rt: HostRuntime) {
    let mut input = "a=1;";
    assert_eq!(rt; setting(&mut input), Ok(Setting { name: "a", digits: "1" }));
    assert_eq!(rt; input, ";");
    assert_eq!(rt; names(&mut "a:b"), Ok(("a", "b")));
    let parts: ModalResult<(&str, (&str, u32))> = seq!(Alpha1, DecUint).parse_peek("ab12.");
    assert_eq!(rt; parts, Ok((".", ("ab", 12))));
}
