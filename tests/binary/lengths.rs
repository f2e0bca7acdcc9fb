//! Length-prefixed data.
use crate::common::{AtBytes, Bytes, OfBytes, agree, ends, fails_behind, sweep};
use std::alloc::{Allocator, Global};
use std::fmt::Debug;
use std::process::Abort;
use stream_errors::empty::EmptyError;
use stream_errors::parser_error::ParserError;
use streams::locating::LocatingSlice;
use streams::needed::Needed;
use streams::partial::Partial;
use streams::stream::{Stream, UpdateSlice};
use test_support::at_bytes;
use test_support::failing::Failing;
use test_support::outcomes::Ending::Takes;
use test_support::outcomes::Kind::{self, Backtrack, Cut, Incomplete, Memory};
use test_support::outcomes::{BACKTRACKS, Ending, lacks, outcome_of};
use test_support::refusing::refused_in_turn;
use test_support::rows::{Modal, same};
use winnow_ascii::ascii::impls::Digit1;
use winnow_binary::binary;
use winnow_binary::binary::impls::LengthRepeat;
use winnow_comb::combinator::impls::Empty;
use winnow_core::parser::Parser;
use winnow_integers::binary::impls::{BeU16, BeU64, U8};
use winnow_numbers::ascii::impls::DecUint;
use winnow_token::token::impls::{Any, Rest};

/// The ending of a call that needs `units` more units after `taken` bytes.
fn lacks_behind(units: usize, taken: usize) -> Ending {
    fails_behind(Incomplete(Needed::new(units)), taken)
}

/// Counts of 0, of the available bytes, of more, and near `usize::MAX`.
fn takes_of_bytes<I: OfBytes, E: ParserError<I>>(rt: &impl Abort) {
    let name = "length_take(u8)";
    let mut parser = binary::length_take::<I, u8, E, U8>(U8);
    let rows = [
        (b"".as_slice(), BACKTRACKS, lacks(1)),
        (b"\x00A", Takes(1), Takes(1)),
        (b"\x02ABC", Takes(3), Takes(3)),
        (b"\x05A", fails_behind(Backtrack, 1), lacks_behind(4, 1)),
    ];
    for (bytes, as_whole, as_cut) in rows {
        ends::<I, _, E, _>(rt, name, &mut parser, bytes, as_whole, as_cut);
    }
    let mut parser = binary::length_take::<I, u64, E, BeU64>(BeU64);
    let most = b"\xFF\xFF\xFF\xFF\xFF\xFF\xFF\xFFA".as_slice();
    let name = "length_take(be_u64)";
    let as_whole = fails_behind(Backtrack, 8);
    let as_cut = lacks_behind(usize::MAX - 1, 8);
    ends::<I, _, E, _>(rt, name, &mut parser, most, as_whole, as_cut);
    let none = b"\xFF\xFF\xFF\xFF\xFF\xFF\xFF\xFE".as_slice();
    let as_cut = lacks_behind(usize::MAX - 1, 8);
    ends::<I, _, E, _>(rt, name, &mut parser, none, as_whole, as_cut);
    let mut parser = binary::length_take::<I, u16, E, BeU16>(BeU16);
    let rows = [
        (BACKTRACKS, lacks(2)),
        (BACKTRACKS, lacks(1)),
        (fails_behind(Backtrack, 2), lacks_behind(3, 2)),
        (fails_behind(Backtrack, 2), lacks_behind(2, 2)),
        (fails_behind(Backtrack, 2), lacks_behind(1, 2)),
        (Takes(5), Takes(5)),
        (Takes(5), Takes(5)),
    ];
    sweep::<I, _, E, _>(rt, "length_take(be_u16)", &mut parser, b"\x00\x03ABC;", &rows);
}

#[test]
fn length_take(rt: HostRuntime) {
    at_bytes!(rt; takes_of_bytes);
    takes_of_bytes::<LocatingSlice<&[u8]>, Modal>(&rt);
    let mut parser = binary::length_take::<Bytes, u8, AtBytes, U8>(U8);
    let got = outcome_of::<Bytes, Bytes, AtBytes, _>(&mut parser, b"\x02ABC");
    agree(&rt, "length_take", b"\x02ABC", got, (Ok(b"AB".as_slice()), b"C".as_slice()));
    let mut parser = binary::length_take::<&str, u8, Modal, DecUint>(DecUint);
    let got = outcome_of::<&str, &str, Modal, _>(&mut parser, "2éab");
    same(&rt, "length_take(dec_uint)", "2éab", got, (Ok("éa"), "b"));
    let got = outcome_of::<&str, &str, Modal, _>(&mut parser, "3éa");
    same(&rt, "length_take(dec_uint)", "3éa", got, (Err(Backtrack), "éa"));
}

/// Text that may get more.
type Text = Partial<&'static str>;

/// Counts of characters of partial text: the results, and the remaining input. A character at the
/// end of partial text may be incomplete, and the number of missing bytes is unknown.
#[test]
fn length_take_of_cut_text(rt: HostRuntime) {
    let one = Incomplete(Needed::new(1));
    let mut parser = binary::length_take::<Text, u8, Modal, DecUint>(DecUint);
    for (text, want, rest) in [
        ("", Err(one), ""),
        ("2", Err(one), ""),
        ("2é", Err(Incomplete(Needed::Unknown)), "é"),
        ("2éa", Ok("éa"), ""),
        ("2éab", Ok("éa"), "b"),
        ("0é", Ok(""), "é"),
        ("é", Err(Backtrack), "é"),
    ] {
        let got = outcome_of::<Text, &str, Modal, _>(&mut parser, Text::new(text));
        same(&rt, "length_take(dec_uint), cut", text, got, (want, Text::new(rest)));
    }
}

#[test]
fn length_and_then_of_cut_text(rt: HostRuntime) {
    let one = Incomplete(Needed::new(1));
    let mut parser = binary::length_and_then::<Text, char, u8, Modal, DecUint, Any>(DecUint, Any);
    for (text, want, rest) in [
        ("", Err(one), ""),
        ("2", Err(one), ""),
        ("2é", Err(Incomplete(Needed::Unknown)), "é"),
        ("2éab", Ok('é'), "b"),
        ("0é", Err(Backtrack), "é"),
    ] {
        let got = outcome_of::<Text, char, Modal, _>(&mut parser, Text::new(text));
        same(&rt, "length_and_then(dec_uint, any), cut", text, got, (want, Text::new(rest)));
    }
}

#[test]
fn length_repeat_of_cut_text(rt: HostRuntime) {
    let one = Incomplete(Needed::new(1));
    let mut parser: LengthRepeat<DecUint, Any, Text, u8, char, usize, Modal, Global> =
        binary::length_repeat(rt.alloc(), DecUint, Any);
    for (text, want, rest) in [
        ("", Err(one), ""),
        ("2", Err(one), ""),
        ("3éa", Err(one), ""),
        ("2éab", Ok(2), "b"),
        ("0é", Ok(0), "é"),
    ] {
        let got = outcome_of::<Text, usize, Modal, _>(&mut parser, Text::new(text));
        same(&rt, "length_repeat(dec_uint, any), cut", text, got, (want, Text::new(rest)));
    }
}

/// The second parser sees only the bytes that the length gives it.
fn thens_of_bytes<I: OfBytes + UpdateSlice + Copy, E: ParserError<I>>(rt: &impl Abort) {
    let name = "length_and_then(u8, any)";
    let mut parser = binary::length_and_then::<I, u8, u8, E, U8, Any>(U8, Any);
    let behind = fails_behind(Backtrack, 1);
    let rows = [
        (b"".as_slice(), BACKTRACKS, lacks(1)),
        (b"\x02ABC", Takes(3), Takes(3)),
        (b"\x00A", behind, behind),
        (b"\x02A", behind, lacks_behind(1, 1)),
    ];
    for (bytes, as_whole, as_cut) in rows {
        ends::<I, _, E, _>(rt, name, &mut parser, bytes, as_whole, as_cut);
    }
    let rows = [
        (BACKTRACKS, lacks(1)),
        (behind, lacks_behind(3, 1)),
        (behind, lacks_behind(2, 1)),
        (behind, lacks_behind(1, 1)),
        (Takes(4), Takes(4)),
        (Takes(4), Takes(4)),
    ];
    sweep::<I, _, E, _>(rt, name, &mut parser, b"\x03ABC;", &rows);
    let name = "length_and_then(u8, be_u16)";
    let mut parser = binary::length_and_then::<I, u16, u8, E, U8, BeU16>(U8, BeU16);
    let short = fails_behind(Backtrack, 2);
    ends::<I, _, E, _>(rt, name, &mut parser, b"\x01ABC", short, short);
    let longer = Takes(4);
    ends::<I, _, E, _>(rt, name, &mut parser, b"\x03ABCD", longer, longer);
}

/// Every error kind of the second parser, after the bytes that it is given.
fn thens_that_fail<I: OfBytes + UpdateSlice + Copy>(rt: &impl Abort) {
    for (kind, want) in [
        (Backtrack, Backtrack),
        (Cut, Cut),
        (Incomplete(Needed::Unknown), Backtrack),
        (Incomplete(Needed::new(3)), Backtrack),
        (Memory, Memory),
    ] {
        let mut parser = binary::length_and_then::<I, u8, u8, Modal, U8, Failing>(
            U8,
            Failing(kind),
        );
        let end = fails_behind(want, 3);
        let name = "length_and_then(u8, failing)";
        ends::<I, _, Modal, _>(rt, name, &mut parser, b"\x02ABC", end, end);
    }
}

#[test]
fn length_and_then(rt: HostRuntime) {
    at_bytes!(rt; thens_of_bytes);
    thens_of_bytes::<LocatingSlice<&[u8]>, Modal>(&rt);
    thens_that_fail::<&[u8]>(&rt);
    thens_that_fail::<Partial<&[u8]>>(&rt);
    let name = "length_and_then(u8, digit1)";
    let mut parser = binary::length_and_then::<Bytes, Bytes, u8, AtBytes, U8, Digit1>(U8, Digit1);
    for (bytes, want, rest) in [
        (b"\x021AB".as_slice(), Ok(b"1".as_slice()), b"B".as_slice()),
        (b"\x02ABC", Err(Backtrack), b"C"),
        (b"\x0212", Ok(b"12"), b""),
    ] {
        let got = outcome_of::<Bytes, Bytes, AtBytes, _>(&mut parser, bytes);
        agree(&rt, name, bytes, got, (want, rest));
    }
    // On partial input the taken bytes are complete input, and the length is partial input.
    let mut parser = binary::length_and_then::<Partial<Bytes>, Bytes, u8, Modal, U8, Digit1>(
        U8,
        Digit1,
    );
    for (bytes, want, rest) in [
        (b"\x0212C".as_slice(), Ok(b"12".as_slice()), b"C".as_slice()),
        (b"\x021", Err(Incomplete(Needed::new(1))), b"1"),
    ] {
        let got = outcome_of::<_, Bytes, Modal, _>(&mut parser, Partial::new(bytes));
        agree(&rt, name, bytes, got, (want, Partial::new(rest)));
    }
    // The taken bytes keep their offsets.
    type Located = LocatingSlice<Bytes>;
    let mut parser = binary::length_and_then::<Located, _, u8, Modal, U8, _>(
        U8,
        Parser::<Located, Bytes, Modal>::with_span(Rest),
    );
    let input = LocatingSlice::new(b"\x02ABC".as_slice());
    let (answer, rest) = outcome_of::<Located, _, Modal, _>(&mut parser, input);
    let got = (answer, *rest.as_inner());
    let want = (Ok((b"AB".as_slice(), 1..3)), b"C".as_slice());
    agree(&rt, "length_and_then(u8, rest.with_span())", b"\x02ABC", got, want);
}

/// One run of a repetition into a list, and the bytes left.
fn listed<O: Drop, P: Parser<Bytes, O, AtBytes> + Drop, A: Allocator + Copy>(
    alloc: A,
    parser: P,
    bytes: Bytes,
) -> (Result<Vec<O, A>, Kind>, Bytes) {
    let mut parser: LengthRepeat<U8, P, Bytes, u8, O, Vec<O, A>, AtBytes, A> = binary::length_repeat(
        alloc, U8, parser,
    );
    outcome_of::<Bytes, Vec<O, A>, AtBytes, _>(&mut parser, bytes)
}

/// A list as its first two numbers and its length.
fn firsts<A: Allocator>(
    run: (Result<Vec<u16, A>, Kind>, Bytes),
) -> (Result<(usize, u16, u16), Kind>, Bytes) {
    match run.0 {
        Ok(all) => {
            let first = all.first().copied().unwrap_or(0);
            let second = all.get(1).copied().unwrap_or(0);
            (Ok((all.len(), first, second)), run.1)
        }
        Err(kind) => (Err(kind), run.1),
    }
}

/// How often a parser is run, into a number.
fn repeats_of_bytes<I: OfBytes, E: ParserError<I>>(rt: &impl Abort, alloc: Global) {
    let name = "length_repeat(u8, be_u16)";
    let mut parser: LengthRepeat<U8, BeU16, I, u8, u16, usize, E, Global> = binary::length_repeat(
        alloc, U8, BeU16,
    );
    let rows = [
        (BACKTRACKS, lacks(1)),
        (fails_behind(Backtrack, 1), lacks_behind(2, 1)),
        (fails_behind(Backtrack, 1), lacks_behind(1, 1)),
        (fails_behind(Backtrack, 3), lacks_behind(2, 3)),
        (fails_behind(Backtrack, 3), lacks_behind(1, 3)),
        (Takes(5), Takes(5)),
        (Takes(5), Takes(5)),
    ];
    sweep::<I, _, E, _>(rt, name, &mut parser, b"\x02\x00\x01\x00\x02\x03", &rows);
    let mut parser: LengthRepeat<BeU64, U8, I, u64, u8, usize, E, Global> = binary::length_repeat(
        alloc, BeU64, U8,
    );
    let most = b"\xFF\xFF\xFF\xFF\xFF\xFF\xFF\xFFAB".as_slice();
    let as_whole = fails_behind(Backtrack, 10);
    let name = "length_repeat(be_u64, u8)";
    ends::<I, _, E, _>(rt, name, &mut parser, most, as_whole, lacks_behind(1, 10));
}

#[test]
fn length_repeat(rt: HostRuntime) {
    repeats_of_bytes::<&[u8], AtBytes>(&rt, rt.alloc());
    repeats_of_bytes::<&[u8], EmptyError>(&rt, rt.alloc());
    repeats_of_bytes::<Partial<&[u8]>, Modal>(&rt, rt.alloc());
    let name = "length_repeat(u8, be_u16)";
    for (bytes, want, rest) in [
        (b"\x02\x00\x01\x00\x02\x03".as_slice(), Ok((2, 1, 2)), b"\x03".as_slice()),
        (b"\x00A", Ok((0, 0, 0)), b"A"),
        (b"\x02\x00\x01\x00", Err(Backtrack), b"\x00"),
    ] {
        let got = firsts(listed::<u16, BeU16, _>(rt.alloc(), BeU16, bytes));
        agree(&rt, name, bytes, got, (want, rest));
    }
    // An item that consumes nothing, and none.
    let mut parser: LengthRepeat<U8, Empty, Bytes, u8, (), usize, AtBytes, Global> =
        binary::length_repeat(rt.alloc(), U8, Empty);
    for (bytes, end) in [
        (b"\x01".as_slice(), fails_behind(Cut, 1)),
        (b"\x00A", Takes(1)),
    ] {
        ends::<Bytes, _, AtBytes, _>(&rt, "length_repeat(u8, empty)", &mut parser, bytes, end, end);
    }
    // The items' errors are returned unchanged.
    for kind in [Backtrack, Cut, Incomplete(Needed::new(3)), Memory] {
        let mut parser: LengthRepeat<U8, Failing, Bytes, u8, u8, usize, AtBytes, Global> =
            binary::length_repeat(rt.alloc(), U8, Failing(kind));
        let end = fails_behind(kind, 2);
        let name = "length_repeat(u8, failing)";
        ends::<Bytes, _, AtBytes, _>(&rt, name, &mut parser, b"\x02AB", end, end);
    }
}

#[test]
fn length_repeat_without_memory(rt: HostRuntime) {
    refused_in_turn(
        &rt,
        "length_repeat(u8, be_u16)",
        rt.alloc(),
        |heap| {
            let bytes = b"\x05\x00\x01\x00\x02\x00\x03\x00\x04\x00\x05";
            let (answer, rest) = firsts(listed::<u16, BeU16, _>(heap, BeU16, bytes));
            (answer, rest.len())
        },
        (Ok((5, 1, 2)), 0),
    );
}
