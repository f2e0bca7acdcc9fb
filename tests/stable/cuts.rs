//! Compositions on every prefix of texts, compared with each longer prefix.
use crate::settling::{Bytes, Lines, Text, settles};
use std::alloc::Global;
use std::fmt::Debug;
use std::process::Abort;
use stream_searches::compare::Compare;
use stream_searches::find::FindSlice;
use stream_sets::as_bstr::{AsBStr, SlicesAsBytes};
use stream_sets::as_char::AsChar;
use stream_sets::classes::DecimalDigits;
use stream_sets::range::Range;
use streams::locating::LocatingSlice;
use test_support::rows::Modal;
use test_support::texts::OfText;
use winnow_ascii::ascii::impls::{Alpha1, Digit1, LineEnding, TillLineEnding};
use winnow_comb::combinator::impls::{
    Cond, CutErr, Delimited, Not, Opt, Peek, Preceded, SeparatedPair, Terminated,
};
use winnow_comb::combinator::{
    alt, cond, cut_err, delimited, not, opt, peek, preceded, separated_pair, terminated,
};
use winnow_core::combinator::impls::{
    AndThen, Map, ParseTo, Take, Value, Verify, VerifyMap, Void, WithTaken,
};
use winnow_core::parser::Parser;
use winnow_numbers::ascii::impls::{DecInt, DecUint, HexUintParser};
use winnow_repeat::combinator::impls::{Repeat, RepeatTill};
use winnow_repeat::combinator::{repeat, repeat_till};
use winnow_separated::combinator::impls::{Separated, SeparatedFoldl1, SeparatedFoldr1};
use winnow_separated::combinator::{separated, separated_foldl1, separated_foldr1};
use winnow_token::token::impls::Any;
use winnow_token::token::{literal, take, take_till, take_until, take_while};

/// Leaves.
fn leaves<I>(rt: &impl Abort)
where
    I: Lines + SlicesAsBytes + Compare<char> + FindSlice<&'static str>,
    I::Token: AsChar + Copy + PartialEq + Debug,
    I::Slice: AsBStr + PartialEq + Debug,
{
    settles::<I, I::Slice, _>(rt, "digit1", Digit1);
    settles::<I, I::Token, _>(rt, "any", Any);
    settles::<I, I::Slice, _>(rt, "take(3)", take(3usize));
    settles::<I, I::Slice, _>(rt, "take_until", take_until(1.., ";"));
    settles::<I, I::Slice, _>(
        rt,
        "take_while",
        take_while(1..=2, DecimalDigits),
    );
    settles::<I, I::Slice, _>(rt, "take_till", take_till(.., DecimalDigits));
    settles::<I, I::Slice, _>(rt, "till_line_ending", TillLineEnding);
    settles::<I, u8, _>(rt, "dec_uint", DecUint);
    settles::<I, i8, _>(rt, "dec_int", DecInt);
    settles::<I, u8, _>(rt, "hex_uint", HexUintParser);
}

/// Choices and options, and leaves in order.
fn choices<I>(rt: &impl Abort)
where
    I: Lines + SlicesAsBytes + Compare<char>,
    I::Token: AsChar + Copy,
    I::Slice: AsBStr + PartialEq + Debug,
{
    settles::<I, I::Slice, _>(rt, "alt of two", alt(("ab", "a")));
    settles::<I, I::Slice, _>(rt, "alt of three", alt((Digit1, "aab", Alpha1)));
    settles::<I, I::Slice, _>(rt, "alt of an array", alt([literal("1,2"), literal("1")]));
    let parser: Not<&str, I, I::Slice, Modal> = not("ab");
    settles::<I, (), _>(rt, "not", parser);
    let parser: Opt<&str, I, I::Slice, Modal> = opt("ab");
    settles::<I, Option<I::Slice>, _>(rt, "opt", parser);
    let parser: Peek<&str, I, I::Slice, Modal> = peek("1,");
    settles::<I, I::Slice, _>(rt, "peek", parser);
    let parser: Cond<Digit1, I, I::Slice, Modal> = cond(true, Digit1);
    settles::<I, Option<I::Slice>, _>(rt, "cond", parser);
    let parser: CutErr<Digit1, I, I::Slice, Modal> = cut_err(Digit1);
    settles::<I, I::Slice, _>(rt, "cut_err", parser);
    settles::<I, (I::Slice, char, u8), _>(rt, "tuple", (Alpha1, ':', DecUint));
    settles::<I, (I::Slice, I::Slice), _>(rt, "lines", (TillLineEnding, LineEnding));
    let parser: Preceded<char, Digit1, I, char, I::Slice, Modal> = preceded('-', Digit1);
    settles::<I, I::Slice, _>(rt, "preceded", parser);
    let parser: Terminated<Digit1, char, I, I::Slice, char, Modal> = terminated(Digit1, ',');
    settles::<I, I::Slice, _>(rt, "terminated", parser);
    let parser: SeparatedPair<Digit1, char, Digit1, I, I::Slice, char, I::Slice, Modal> =
        separated_pair(Digit1, ',', Digit1);
    settles::<I, (I::Slice, I::Slice), _>(rt, "separated_pair", parser);
    let parser: Delimited<char, DecUint, char, I, char, u8, char, Modal> = delimited(
        '[', DecUint, ']',
    );
    settles::<I, (I::Slice, u8), _>(rt, "delimited", (Alpha1, parser));
}

/// Repetitions, folds and separation.
fn repetitions<I>(rt: &impl Abort, alloc: Global)
where
    I: Lines + SlicesAsBytes + Compare<char>,
    I::Token: AsChar + Copy,
    I::Slice: AsBStr + PartialEq + Debug,
{
    let any = Range::from(0..);
    let parser: Repeat<Any, I, I::Token, (), Modal, Global> = repeat(alloc, 3, Any);
    settles::<I, (), _>(rt, "repeat(3)", parser);
    let parser: Repeat<(Digit1, char), I, (I::Slice, char), usize, Modal, Global> = repeat(
        alloc,
        any,
        (Digit1, ','),
    );
    settles::<I, usize, _>(rt, "repeat(0..)", parser);
    let parser: Repeat<Alpha1, I, I::Slice, usize, Modal, Global> = repeat(
        alloc,
        1..,
        Alpha1,
    );
    settles::<I, usize, _>(rt, "repeat(1..)", parser);
    let parser: RepeatTill<Any, char, I, I::Token, char, usize, Modal, Global> = repeat_till(
        alloc, any, Any, ';',
    );
    settles::<I, (usize, char), _>(rt, "repeat_till", parser);
    let parser: Separated<Digit1, char, I, I::Slice, char, Vec<I::Slice>, Modal, Global> =
        separated(alloc, any, Digit1, ',');
    settles::<I, Vec<I::Slice>, _>(rt, "separated(0..)", parser);
    let parser: Separated<Digit1, char, I, I::Slice, char, usize, Modal, Global> = separated(
        alloc,
        2..=3,
        Digit1,
        ',',
    );
    settles::<I, usize, _>(rt, "separated(2..=3)", parser);
    let digits: Repeat<(DecUint, char), I, (u8, char), (), Modal, Global> = repeat(
        alloc,
        any,
        (DecUint, ','),
    );
    let parser = digits.fold(|| 0, |sum: u8, (n, _): (u8, char)| sum.wrapping_add(n));
    settles::<I, u8, _>(rt, "fold", parser);
    let parser: SeparatedFoldl1<DecUint, char, _, I, u8, char, Modal> = separated_foldl1(
        DecUint,
        ',',
        |a: u8, _: char, b: u8| a.wrapping_mul(3).wrapping_add(b),
    );
    settles::<I, u8, _>(rt, "separated_foldl1", parser);
    let parser: SeparatedFoldr1<DecUint, char, _, I, u8, char, Modal, Global> = separated_foldr1(
        alloc,
        DecUint,
        ',',
        |a: u8, _: char, b: u8| a.wrapping_sub(b),
    );
    settles::<I, u8, _>(rt, "separated_foldr1", parser);
}

/// Adapters.
fn adapters(rt: &impl Abort) {
    let parser: Map<Digit1, _, Text, &str, usize, Modal> = Digit1.map(|text: &str| text.len());
    settles::<Text, usize, _>(rt, "map", parser);
    let parser: Verify<Digit1, _, Text, &str, Modal> = Digit1.verify(|text: &&str| text.len() == 2);
    settles::<Text, &str, _>(rt, "verify", parser);
    let parser: VerifyMap<Any, _, Text, char, u32, Modal> = Any.verify_map(|c: char| c.to_digit(
        10,
    ));
    settles::<Text, u32, _>(rt, "verify_map", parser);
    let parser: ParseTo<Digit1, Text, &str, u8, Modal> = Digit1.parse_to();
    settles::<Text, u8, _>(rt, "parse_to", parser);
    let parser: Value<char, Text, char, u8, Modal> = 'a'.value(7);
    settles::<Text, u8, _>(rt, "value", parser);
    let parser: Void<(Alpha1, char), Text, (&str, char), Modal> = (Alpha1, ':').void();
    settles::<Text, (), _>(rt, "void", parser);
    let parser: Take<(Alpha1, char), Text, (&str, char), Modal> = (Alpha1, ':').take();
    settles::<Text, &str, _>(rt, "take", parser);
    let parser: WithTaken<DecInt, Text, i16, Modal> = DecInt.with_taken();
    settles::<Text, (i16, &str), _>(rt, "with_taken", parser);
    let parser: AndThen<Alpha1, &str, Text, &str, &str, Modal> = Alpha1.and_then("aa");
    settles::<Text, &str, _>(rt, "and_then", parser);
}

#[test]
fn leaves_on_all_cuts(rt: HostRuntime) {
    leaves::<Text>(&rt);
    leaves::<Bytes>(&rt);
    leaves::<LocatingSlice<Text>>(&rt);
    leaves::<LocatingSlice<Bytes>>(&rt);
}

#[test]
fn choices_on_all_cuts(rt: HostRuntime) {
    choices::<Text>(&rt);
    choices::<Bytes>(&rt);
    choices::<LocatingSlice<Text>>(&rt);
    choices::<LocatingSlice<Bytes>>(&rt);
}

#[test]
fn repetitions_on_all_cuts(rt: HostRuntime) {
    repetitions::<Text>(&rt, rt.alloc());
    repetitions::<Bytes>(&rt, rt.alloc());
    repetitions::<LocatingSlice<Text>>(&rt, rt.alloc());
    repetitions::<LocatingSlice<Bytes>>(&rt, rt.alloc());
}

#[test]
fn adapters_on_all_cuts(rt: HostRuntime) {
    adapters(&rt);
}
