//! Errors of the bit parsers: kinds that are kept, needs that are converted, and the same parsers
//! under plain errors.
use stream_bits::bits::Bits;
use stream_errors::empty::EmptyError;
use streams::needed::Needed;
use streams::partial::Partial;
use test_support::failing::Failing;
use test_support::outcomes::{Kind, outcome_of};
use test_support::rows::{Modal, same};
use winnow_bits::bits;
use winnow_bits::bits::impls::Bool;
use winnow_core::parser::Func;
use winnow_token::token;
use winnow_token::token::impls::Any;

/// A need of `units` units.
fn lacks(units: usize) -> Kind {
    Kind::Incomplete(Needed::new(units))
}

/// A kind, then that of `bits` and that of `bytes` where their parser fails so. Both leave the
/// input where it was, though the parser took something.
#[test]
fn bits_keep_kinds(rt: HostRuntime) {
    let unknown = Kind::Incomplete(Needed::Unknown);
    let rows = [
        (Kind::Backtrack, Kind::Backtrack, Kind::Backtrack),
        (Kind::Cut, Kind::Cut, Kind::Cut),
        (Kind::Memory, Kind::Memory, Kind::Memory),
        (unknown, unknown, unknown),
        (lacks(1), lacks(1), lacks(8)),
        (lacks(7), lacks(1), lacks(56)),
        (lacks(8), lacks(2), lacks(64)),
        (lacks(usize::MAX), lacks(usize::MAX / 8 + 1), unknown),
    ];
    let input = b"\xAB\xCD".as_slice();
    let inside = Bits(input, 4);
    for (of_parser, of_bits, of_bytes) in rows {
        let mut parser = bits::bits::<_, u8, Modal, Modal, _>(Failing(of_parser));
        let got = outcome_of::<_, u8, Modal, _>(&mut parser, input);
        same(&rt, "bits", "a failure", got, (Err(of_bits), input));
        let mut parser = bits::bytes::<_, u8, Modal, Modal, _>(Failing(of_parser));
        let got = outcome_of::<_, u8, Modal, _>(&mut parser, inside);
        same(&rt, "bytes", "a failure", got, (Err(of_bytes), inside));
    }
}

/// Needs of fewer bits than a byte has.
#[test]
fn bits_need_a_byte(rt: HostRuntime) {
    let none = Partial::new(b"".as_slice());
    let mut parser = bits::bits::<_, u8, Modal, Modal, _>(bits::take(4u8));
    let got = outcome_of::<_, u8, Modal, _>(&mut parser, none);
    same(&rt, "bits", "cut nothing", got, (Err(lacks(1)), none));
    let mut parser = bits::bits::<_, bool, Modal, Modal, _>(Bool);
    let got = outcome_of::<_, bool, Modal, _>(&mut parser, none);
    same(&rt, "bits", "cut nothing, a bit", got, (Err(lacks(1)), none));
}

/// Under plain errors an assert error is a backtrack, and so is a need of partial input.
#[test]
fn plain_errors_of_bits(rt: HostRuntime) {
    let few = Bits(Partial::new(b"\xAB".as_slice()), 0);
    let got = outcome_of::<_, u16, EmptyError, _>(&mut bits::pattern(0_u16, 9u8), few);
    same(&rt, "pattern", "too few", got, (Err(Kind::Backtrack), few));
    let got = outcome_of::<_, u8, EmptyError, _>(&mut bits::pattern(0_u8, 9u8), few);
    same(&rt, "pattern", "past the width", got, (Err(Kind::Backtrack), few));
    let beyond = Bits(b"\xAB".as_slice(), 8);
    let got = outcome_of::<_, bool, EmptyError, _>(&mut Bool, beyond);
    same(&rt, "bool", "an impossible place", got, (Err(Kind::Backtrack), beyond));
    let mut parser = bits::bytes::<_, u8, EmptyError, EmptyError, _>(Any);
    let got = outcome_of::<_, u8, EmptyError, _>(&mut parser, beyond);
    same(&rt, "bytes", "an impossible place", got, (Err(Kind::Backtrack), beyond));
    let mut parser = bits::bytes::<_, &'static [u8], EmptyError, EmptyError, _>(token::take(2u8));
    let got = outcome_of::<_, &'static [u8], EmptyError, _>(&mut parser, few);
    same(&rt, "bytes", "too few", got, (Err(Kind::Backtrack), few));
    let mut parser = bits::bits::<_, u16, EmptyError, EmptyError, _>(bits::take(16u8));
    let got = outcome_of::<_, u16, EmptyError, _>(&mut parser, few.0);
    same(&rt, "bits", "too few", got, (Err(Kind::Backtrack), few.0));
    let mut parser = bits::bits::<_, u8, EmptyError, EmptyError, _>(bits::take(9u8));
    let got = outcome_of::<_, u8, EmptyError, _>(&mut parser, few.0);
    same(&rt, "bits", "past the width", got, (Err(Kind::Backtrack), few.0));
    let none = Bits(Partial::new(b"".as_slice()), 0);
    let got = outcome_of::<_, bool, EmptyError, _>(&mut Bool, none);
    same(&rt, "bool", "cut nothing", got, (Err(Kind::Backtrack), none));
}

/// A parser that succeeds and leaves a place that cannot be read.
#[test]
fn bits_that_leave_an_impossible_place(rt: HostRuntime) {
    let input = b"\xAB\xCD".as_slice();
    let leaves = |bits: &mut Bits<&[u8]>| {
        bits.1 = 8;
        Ok::<u8, EmptyError>(7)
    };
    let mut parser = bits::bits::<_, u8, EmptyError, EmptyError, _>(Func(leaves));
    let got = outcome_of::<_, u8, EmptyError, _>(&mut parser, input);
    same(&rt, "bits", "a plain error", got, (Err(Kind::Backtrack), input));
    let leaves = |bits: &mut Bits<&[u8]>| {
        *bits = Bits(b"".as_slice(), 1);
        Ok::<u8, Modal>(7)
    };
    let mut parser = bits::bits::<_, u8, Modal, Modal, _>(Func(leaves));
    let got = outcome_of::<_, u8, Modal, _>(&mut parser, input);
    same(&rt, "bits", "an error with a mode", got, (Err(Kind::Cut), input));
}
