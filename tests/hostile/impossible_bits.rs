//! Bits that cannot be read: of a missing byte, or at an invalid bit offset.
use std::process::Abort;
use stream_bits::bits::Bits;
use stream_errors::empty::EmptyError;
use stream_errors::parser_error::ParserError;
use streams::needed::Needed;
use streams::partial::Partial;
use streams::stream::Stream;
use test_support::outcomes::Kind::{Backtrack, Cut, Incomplete};
use test_support::outcomes::{Kind, outcome_of};
use test_support::rows::{Modal, same};
use winnow_bits::bits;
use winnow_bits::bits::impls::Bool;
use winnow_core::combinator::impls::Eof;
use winnow_core::parser::{Func, Parser};
use winnow_repeat::combinator::impls::Repeat;
use winnow_repeat::combinator::repeat;
use winnow_token::token;
use winnow_token::token::impls::{Any, Rest, RestLen};

/// The bits of bytes.
type Whole = Bits<&'static [u8]>;

/// The bits of bytes to which more may come.
type CutBits = Bits<Partial<&'static [u8]>>;

fn whole(bytes: &'static [u8], read: usize) -> Whole {
    Bits(bytes, read)
}

fn cut(bytes: &'static [u8], read: usize) -> CutBits {
    Bits(Partial::new(bytes), read)
}

/// Bits that cannot be read.
const IMPOSSIBLE: [(&'static [u8], usize); 7] = [
    (b"\xAB", 8),
    (b"\xAB", 9),
    (b"\xAB\xCD", 16),
    (b"\xAB", usize::MAX),
    (b"", 1),
    (b"", 8),
    (b"", usize::MAX),
];

/// The parsers of bits that take some.
#[test]
fn fields_at_impossible_places(rt: HostRuntime) {
    for (bytes, read) in IMPOSSIBLE {
        let row = "an impossible place";
        let input = whole(bytes, read);
        let got = outcome_of::<_, u8, Modal, _>(&mut bits::take(1u8), input);
        same(&rt, "take(1)", row, got, (Err(Cut), input));
        let got = outcome_of::<_, u8, EmptyError, _>(&mut bits::take(1u8), input);
        same(&rt, "take(1), plain", row, got, (Err(Backtrack), input));
        let got = outcome_of::<_, u8, Modal, _>(&mut bits::take(9u8), input);
        same(&rt, "take(9)", row, got, (Err(Cut), input));
        let got = outcome_of::<_, u8, Modal, _>(&mut bits::take(0u8), input);
        same(&rt, "take(0)", row, got, (Ok(0), input));
        let got = outcome_of::<_, u8, Modal, _>(&mut bits::pattern(1u8, 1u8), input);
        same(&rt, "pattern", row, got, (Err(Cut), input));
        let got = outcome_of::<_, bool, Modal, _>(&mut Bool, input);
        same(&rt, "bool", row, got, (Err(Cut), input));
        let input = cut(bytes, read);
        let got = outcome_of::<_, u8, Modal, _>(&mut bits::take(1u8), input);
        same(&rt, "take(1), cut", row, got, (Err(Cut), input));
        let got = outcome_of::<_, bool, Modal, _>(&mut Bool, input);
        same(&rt, "bool, cut", row, got, (Err(Cut), input));
    }
}

/// The parser of bytes.
#[test]
fn bytes_at_impossible_places(rt: HostRuntime) {
    for (bytes, read) in IMPOSSIBLE {
        let input = whole(bytes, read);
        let mut parser = bits::bytes::<_, _, Modal, Modal, _>(Rest);
        let got = outcome_of::<_, &[u8], Modal, _>(&mut parser, input);
        same(
            &rt,
            "bytes(rest)",
            "an impossible place",
            got,
            (Err(Cut), input),
        );
        let input = cut(bytes, read);
        let mut parser = bits::bytes::<_, _, Modal, Modal, _>(Rest);
        let got = outcome_of::<_, &[u8], Modal, _>(&mut parser, input);
        same(
            &rt,
            "bytes(rest), cut",
            "an impossible place",
            got,
            (Err(Cut), input),
        );
    }
}

/// The parsers of tokens: no bit remains.
#[test]
fn tokens_at_impossible_places(rt: HostRuntime) {
    let lacks = |units: usize| -> Kind { Incomplete(Needed::new(units)) };
    for (bytes, read) in IMPOSSIBLE {
        let row = "an impossible place";
        let input = whole(bytes, read);
        let got = outcome_of::<_, bool, Modal, _>(&mut Any, input);
        same(&rt, "any", row, got, (Err(Backtrack), input));
        let (answer, rest) = outcome_of::<_, _, Modal, _>(&mut Eof, input);
        same(&rt, "eof", row, (answer.is_ok(), rest), (true, input));
        let got = outcome_of::<_, usize, Modal, _>(&mut RestLen, input);
        same(&rt, "rest_len", row, got, (Ok(0), input));
        let (answer, rest) = outcome_of::<_, _, Modal, _>(&mut Rest, input);
        same(&rt, "rest", row, (answer.is_ok(), rest), (true, input));
        let mut two = token::take::<_, _, Modal>(2u8);
        let (answer, rest) = outcome_of::<_, _, Modal, _>(&mut two, input);
        same(
            &rt,
            "take(2)",
            row,
            (answer.err(), rest),
            (Some(Backtrack), input),
        );
        let input = cut(bytes, read);
        let got = outcome_of::<_, bool, Modal, _>(&mut Any, input);
        same(&rt, "any, cut", row, got, (Err(lacks(1)), input));
        let (answer, rest) = outcome_of::<_, _, Modal, _>(&mut Eof, input);
        same(&rt, "eof, cut", row, (answer.is_ok(), rest), (true, input));
        let mut two = token::take::<_, _, Modal>(2u8);
        let (answer, rest) = outcome_of::<_, _, Modal, _>(&mut two, input);
        same(
            &rt,
            "take(2), cut",
            row,
            (answer.err(), rest),
            (Some(lacks(2)), input),
        );
    }
}

/// A repetition there ends.
#[test]
fn repetitions_at_impossible_places(rt: HostRuntime) {
    for (bytes, read) in IMPOSSIBLE {
        let input = whole(bytes, read);
        let mut all: Repeat<Any, Whole, bool, usize, Modal, _> = repeat(
            rt.alloc(),
            0..,
            Any,
        );
        let got = outcome_of::<_, usize, Modal, _>(&mut all, input);
        same(
            &rt,
            "repeat(any)",
            "an impossible place",
            got,
            (Ok(0), input),
        );
        let mut all: Repeat<Bool, Whole, bool, usize, Modal, _> = repeat(
            rt.alloc(),
            0..,
            Bool,
        );
        let got = outcome_of::<_, usize, Modal, _>(&mut all, input);
        same(
            &rt,
            "repeat(bool)",
            "an impossible place",
            got,
            (Err(Cut), input),
        );
    }
}

/// A parser that leaves such bits, inside of one of bytes: the bytes are as they were.
#[test]
fn bits_that_leave_an_impossible_place(rt: HostRuntime) {
    for read in [8, 9, usize::MAX] {
        let leaves = Func(move |input: &mut Whole| {
            let answer: Result<u8, Modal> = bits::take(4u8).parse_next(input);
            *input = Bits(input.0, read);
            answer
        });
        let input = b"\xAB\xCD".as_slice();
        let mut parser = bits::bits::<_, _, Modal, Modal, _>(leaves);
        let got = outcome_of::<&[u8], u8, Modal, _>(&mut parser, input);
        same(
            &rt,
            "bits",
            "an impossible place left",
            got,
            (Err(Cut), input),
        );
    }
}
