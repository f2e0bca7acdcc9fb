//! Classes, line endings and adapters on every prefix of the texts, compared with each longer
//! prefix.
use crate::settling::{Bytes, Lines, Text, settles};
use std::alloc::Global;
use std::fmt::Debug;
use std::process::Abort;
use stream_searches::caseless::Caseless;
use stream_searches::compare::Compare;
use stream_sets::as_bstr::{AsBStr, SlicesAsBytes};
use stream_sets::as_char::AsChar;
use stream_sets::classes::DecimalDigits;
use stream_sets::range::Range;
use streams::locating::LocatingSlice;
use streams::stream::Location;
use test_support::rows::Modal;
use test_support::texts::OfText;
use winnow_ascii::ascii::impls::{
    Alpha0, Alpha1, Alphanumeric0, Alphanumeric1, Crlf, Digit0, Digit1, HexDigit0, HexDigit1,
    Multispace0, Multispace1, Newline, OctDigit0, OctDigit1, Space0, Space1, Tab,
};
use winnow_comb::combinator::impls::{BacktrackErr, CutErr, Fail};
use winnow_comb::combinator::{backtrack_err, cut_err};
use winnow_core::combinator::impls::{
    Context, ContextWith, DefaultValue, FlatMap, Map, OutputInto, Span, Take as Taken, TryMap, Void,
    WithSpan, WithTaken,
};
use winnow_core::parser::Parser;
use winnow_numbers::ascii::impls::DecUint;
use winnow_repeat::combinator::impls::Repeat;
use winnow_repeat::combinator::{fill, repeat};
use winnow_token::token::impls::{Any, NoneOf, OneOf, Take};
use winnow_token::token::{none_of, one_of, take};

/// The classes of characters that the other rows do not name.
fn classes<I>(rt: &impl Abort)
where
    I: Lines,
    I::Token: AsChar + Copy,
    I::Slice: PartialEq + Debug,
{
    settles::<I, I::Slice, _>(rt, "alpha0", Alpha0);
    settles::<I, I::Slice, _>(rt, "alphanumeric0", Alphanumeric0);
    settles::<I, I::Slice, _>(rt, "alphanumeric1", Alphanumeric1);
    settles::<I, I::Slice, _>(rt, "digit0", Digit0);
    settles::<I, I::Slice, _>(rt, "hex_digit0", HexDigit0);
    settles::<I, I::Slice, _>(rt, "hex_digit1", HexDigit1);
    settles::<I, I::Slice, _>(rt, "oct_digit0", OctDigit0);
    settles::<I, I::Slice, _>(rt, "oct_digit1", OctDigit1);
    settles::<I, I::Slice, _>(rt, "multispace0", Multispace0);
    settles::<I, I::Slice, _>(rt, "multispace1", Multispace1);
    settles::<I, I::Slice, _>(rt, "space0", Space0);
    settles::<I, I::Slice, _>(rt, "space1", Space1);
}

/// Single characters, literals and what reads nothing.
fn characters<I>(rt: &impl Abort)
where
    I: Lines + Compare<char> + Compare<Caseless<&'static str>>,
    I::Token: AsChar + Copy + PartialEq + Debug,
    I::Slice: PartialEq + Debug,
{
    settles::<I, I::Slice, _>(rt, "crlf", Crlf);
    settles::<I, char, _>(rt, "newline", Newline);
    settles::<I, char, _>(rt, "tab", Tab);
    settles::<I, I::Slice, _>(rt, "caseless", Caseless("AB"));
    settles::<I, (), _>(rt, "fail", Fail);
    settles::<I, (), _>(rt, "nothing", ());
    settles::<I, (I::Slice,), _>(rt, "a tuple of one", (Digit1,));
    let parser: OneOf<DecimalDigits, I, Modal> = one_of(DecimalDigits);
    settles::<I, I::Token, _>(rt, "one_of", parser);
    let parser: NoneOf<DecimalDigits, I, Modal> = none_of(DecimalDigits);
    settles::<I, I::Token, _>(rt, "none_of", parser);
}

/// Adapters, and combinators that change errors.
fn adapters<I>(rt: &impl Abort)
where
    I: Lines + SlicesAsBytes + Compare<char>,
    I::Token: AsChar + Copy + PartialEq + Debug,
    I::Slice: AsBStr + PartialEq + Debug,
{
    let parser: FlatMap<DecUint, _, Take<I, Modal>, I, u8, I::Slice, Modal> =
        DecUint.flat_map(|count: u8| take(count));
    settles::<I, I::Slice, _>(rt, "flat_map", parser);
    let parser: DefaultValue<Alpha1, I, I::Slice, u8, Modal> = Alpha1.default_value();
    settles::<I, u8, _>(rt, "default_value", parser);
    let parser: Map<DecUint, _, I, u8, u8, Modal> = DecUint.map(|n: u8| n / 2);
    settles::<I, u8, _>(rt, "map", parser);
    let parser: Void<(Alpha1, char), I, (I::Slice, char), Modal> = (Alpha1, ':').void();
    settles::<I, (), _>(rt, "void", parser);
    let parser: Taken<(Alpha1, char), I, (I::Slice, char), Modal> = (Alpha1, ':').take();
    settles::<I, I::Slice, _>(rt, "take", parser);
    let parser: WithTaken<DecUint, I, u8, Modal> = DecUint.with_taken();
    settles::<I, (u8, I::Slice), _>(rt, "with_taken", parser);
    let digits: CutErr<Digit1, I, I::Slice, Modal> = cut_err(Digit1);
    let parser: BacktrackErr<_, I, I::Slice, Modal> = backtrack_err(digits);
    settles::<I, I::Slice, _>(rt, "backtrack_err", parser);
}

/// Adapters that tell the place.
fn places<I>(rt: &impl Abort)
where
    I: Lines + Location + Compare<char>,
    I::Token: AsChar + Copy,
    I::Slice: PartialEq + Debug,
{
    let parser: Span<(Alpha1, char), I, (I::Slice, char), Modal> = (Alpha1, ':').span();
    settles::<I, _, _>(rt, "span", parser);
    let parser: WithSpan<Digit1, I, I::Slice, Modal> = Digit1.with_span();
    settles::<I, _, _>(rt, "with_span", parser);
}

/// Folds that may fail.
fn folds<I>(rt: &impl Abort, alloc: Global)
where
    I: Lines + SlicesAsBytes + Compare<char>,
    I::Token: AsChar + Copy,
    I::Slice: AsBStr + PartialEq + Debug,
{
    let any = Range::from(0..);
    let numbers: Repeat<(DecUint, char), I, (u8, char), (), Modal, Global> = repeat(
        alloc,
        any,
        (DecUint, ','),
    );
    let parser = numbers.verify_fold(
        || 0_u8,
        |sum: u8, (n, _): (u8, char)| if n == 2 { None } else { Some(sum.wrapping_add(n)) },
    );
    settles::<I, u8, _>(rt, "verify_fold", parser);
    let numbers: Repeat<(DecUint, char), I, (u8, char), (), Modal, Global> = repeat(
        alloc,
        any,
        (DecUint, ','),
    );
    let parser = numbers.try_fold(
        || 0_u8,
        |sum: u8, (n, _): (u8, char)| if n == 2 { Err("two") } else { Ok(sum.wrapping_add(n)) },
    );
    settles::<I, u8, _>(rt, "try_fold", parser);
}

#[test]
fn classes_on_all_cuts(rt: HostRuntime) {
    classes::<Text>(&rt);
    classes::<Bytes>(&rt);
    classes::<LocatingSlice<Text>>(&rt);
}

#[test]
fn characters_on_all_cuts(rt: HostRuntime) {
    characters::<Text>(&rt);
    characters::<Bytes>(&rt);
    characters::<LocatingSlice<Text>>(&rt);
}

#[test]
fn more_adapters_on_all_cuts(rt: HostRuntime) {
    adapters::<Text>(&rt);
    adapters::<Bytes>(&rt);
    adapters::<LocatingSlice<Text>>(&rt);
    places::<LocatingSlice<Text>>(&rt);
    places::<LocatingSlice<Bytes>>(&rt);
}

#[test]
fn more_folds_on_all_cuts(rt: HostRuntime) {
    folds::<Text>(&rt, rt.alloc());
    folds::<Bytes>(&rt, rt.alloc());
}

/// Of text: outputs that become others, and errors with contexts.
#[test]
fn adapters_of_text_on_all_cuts(rt: HostRuntime) {
    let parser: TryMap<Digit1, _, Text, &str, u8, Modal, _> =
        Digit1.try_map(|digits: &str| digits.parse::<u8>());
    settles::<Text, u8, _>(&rt, "try_map", parser);
    let mut digits = Digit1;
    let parser: Void<_, Text, (&str, char), Modal> = (digits.by_ref(), ',').void();
    settles::<Text, (), _>(&rt, "by_ref", parser);
    let parser: OutputInto<Any, Text, char, u32, Modal> = Any.output_into();
    settles::<Text, u32, _>(&rt, "output_into", parser);
    let mut letters = ['x', 'y'];
    settles::<Text, (), _>(&rt, "fill", fill(Any, &mut letters));
    let parser: Context<Digit1, Text, &str, Modal, &str, Global> =
        Digit1.context(rt.alloc(), "a number");
    settles::<Text, &str, _>(&rt, "context", parser);
    let parser: ContextWith<Digit1, Text, &str, Modal, _, &str, _, Global> =
        Digit1.context_with(rt.alloc(), || ["a number"].into_iter());
    settles::<Text, &str, _>(&rt, "context_with", parser);
}
