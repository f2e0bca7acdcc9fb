//! Leaves as parsers of the library.
use crate::closures::{LENGTHS, said};
use crate::shown::Shown;
use crate::tree::{Bounds, Leaf};
use stream_searches::caseless::Caseless;
use stream_searches::compare::Compare;
use stream_searches::find::FindSlice;
use stream_sets::as_bstr::SlicesAsBytes;
use stream_sets::range::Range;
use streams::byte_stream::ByteStream;
use streams::partial::Partial;
use streams::stream::{StreamIsPartial, UpdateSlice};
use test_support::rows::Modal;
use winnow_ascii::ascii::impls::{Alpha1, Digit0, LineEnding, TillLineEnding};
use winnow_binary::binary::length_take;
use winnow_comb::combinator::impls::Fail;
use winnow_core::combinator::impls::Eof;
use winnow_core::parser::Parser;
use winnow_integers::binary::impls::{BeU16, LeI16};
use winnow_numbers::ascii::impls::{DecInt, DecUint, HexUintParser};
use winnow_token::token::impls::{Any, Rest, RestLen};
use winnow_token::token::{none_of, one_of, take, take_till, take_until, take_while};

/// A stream of bytes, whole or cut.
pub(crate) trait Bytes<'i>: StreamIsPartial<Slice = &'i [u8]>
    + ByteStream
    + SlicesAsBytes
    + UpdateSlice
    + Copy
    + Compare<u8>
    + Compare<&'static str>
    + Compare<Caseless<&'static str>>
    + FindSlice<&'static str>
    + FindSlice<(char, char)> {}

impl<'i> Bytes<'i> for &'i [u8] {}

impl<'i> Bytes<'i> for Partial<&'i [u8]> {}

/// The range of occurrences.
pub(crate) fn range_of(bounds: Bounds) -> Range {
    match bounds.greatest {
        Some(greatest) => Range::from(bounds.least..=greatest),
        None => Range::from(bounds.least..),
    }
}

/// One run of a leaf.
pub(crate) fn run_leaf<'i, I: Bytes<'i>>(leaf: Leaf, input: &mut I) -> Result<Shown, Modal> {
    match leaf {
        Leaf::Byte(byte) => byte.map(Shown::token).parse_next(input),
        Leaf::Text(text) => text.map(Shown::slice).parse_next(input),
        Leaf::Caseless(text) => Caseless(text).map(Shown::slice).parse_next(input),
        Leaf::LineEnding => LineEnding.map(Shown::slice).parse_next(input),
        Leaf::Any => Any.map(Shown::token).parse_next(input),
        Leaf::OneOf(set) => one_of(set).map(Shown::token).parse_next(input),
        Leaf::NoneOf(set) => none_of(set).map(Shown::token).parse_next(input),
        Leaf::Empty => ().map(|_: ()| Shown::unit()).parse_next(input),
        Leaf::Fail => Fail.parse_next(input),
        Leaf::Eof => Eof.map(Shown::slice).parse_next(input),
        Leaf::Rest => Rest.map(Shown::slice).parse_next(input),
        Leaf::RestLen => RestLen.map(Shown::count).parse_next(input),
        _ => run_stretch(leaf, input),
    }
}

/// One run of a leaf that takes a stretch of the input.
fn run_stretch<'i, I: Bytes<'i>>(leaf: Leaf, input: &mut I) -> Result<Shown, Modal> {
    match leaf {
        Leaf::Take(count) => take(count).map(Shown::slice).parse_next(input),
        Leaf::TakeWhile(bounds, set) => {
            take_while(range_of(bounds), set).map(Shown::slice).parse_next(input)
        }
        Leaf::TakeTill(bounds, set) => {
            take_till(range_of(bounds), set).map(Shown::slice).parse_next(input)
        }
        Leaf::TakeUntil(bounds, text) => {
            take_until(range_of(bounds), text).map(Shown::slice).parse_next(input)
        }
        Leaf::Alpha1 => Alpha1.map(Shown::slice).parse_next(input),
        Leaf::Digit0 => Digit0.map(Shown::slice).parse_next(input),
        Leaf::TillLineEnding => TillLineEnding.map(Shown::slice).parse_next(input),
        Leaf::DecUint => DecUint.map(|n: u8| Shown::number(i64::from(n))).parse_next(input),
        Leaf::DecInt => DecInt.map(|n: i8| Shown::number(i64::from(n))).parse_next(input),
        Leaf::HexUint => HexUintParser.map(|n: u8| Shown::number(i64::from(n))).parse_next(input),
        Leaf::BeU16 => BeU16.map(|n: u16| Shown::number(i64::from(n))).parse_next(input),
        Leaf::LeI16 => LeI16.map(|n: i16| Shown::number(i64::from(n))).parse_next(input),
        _ => length_take(one_of(LENGTHS).map(said)).map(Shown::slice).parse_next(input),
    }
}
