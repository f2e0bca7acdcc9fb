//! Choices.
use crate::common::{AtBytes, Bytes, Plain, letter};
use std::process::Abort;
use stream_errors::parser_error::ParserError;
use streams::needed::Needed;
use streams::partial::Partial;
use streams::stream::Stream;
use test_support::at_text;
use test_support::failing::Failing;
use test_support::outcomes::Ending::Takes;
use test_support::outcomes::Kind::{self, Backtrack, Cut};
use test_support::outcomes::{BACKTRACKS, ending_of, lacks, outcome_of};
use test_support::rows::{
    Modal, answers, answers_each, endings_in_text, ends_each, like_ends, outcome_in_text, same,
};
use test_support::texts::{OfText, whole};
use winnow_comb::combinator;
use winnow_comb::combinator::impls::Fail;

/// Choices among six and among nine. One among none is an assert error, of this kind.
fn alt_of_many<E: ParserError<Bytes>>(rt: &impl Abort, asserted: Kind) {
    let rows = [
        ("a;", Ok(b'a'), ";"),
        ("c;", Ok(b'c'), ";"),
        ("f;", Ok(b'f'), ";"),
        ("j;", Err(Backtrack), "j;"),
        ("", Err(Backtrack), ""),
    ];
    let six = combinator::alt((b'a', b'b', b'c', b'd', b'e', b'f'));
    answers_each::<Bytes, u8, E, _>(rt, "alt of six", six, &rows);
    let nine = combinator::alt((b'a', b'b', b'c', b'd', b'e', b'f', b'g', b'h', b'i'));
    let rows = [
        ("f;", Ok(b'f'), ";"),
        ("g;", Ok(b'g'), ";"),
        ("i;", Ok(b'i'), ";"),
        ("j;", Err(Backtrack), "j;"),
    ];
    answers_each::<Bytes, u8, E, _>(rt, "alt of nine", nine, &rows);
    let none: [u8; 0] = [];
    let none = combinator::alt(none);
    answers::<Bytes, u8, E, _>(rt, "alt of none", none, "a", Err(asserted), "a");
}

/// A choice runs each branch from the start, and ends at the first that does not backtrack.
#[test]
fn alt(rt: HostRuntime) {
    alt_of_many::<AtBytes>(&rt, Cut);
    alt_of_many::<Plain>(&rt, Backtrack);
    let rows = [
        ("ab;", Ok(b'b'), ";"),
        ("ac;", Ok(b'c'), ";"),
        ("ad;", Err(Backtrack), "d;"),
    ];
    let first = combinator::preceded(b'a', b'b');
    let either = combinator::alt((first, combinator::preceded(b'a', b'c')));
    answers_each::<Bytes, u8, AtBytes, _>(&rt, "alt", either, &rows);
    let first = combinator::preceded(b'a', combinator::cut_err(b'b'));
    let decided = combinator::alt((first, combinator::preceded(b'a', b'c')));
    answers::<Bytes, u8, AtBytes, _>(&rt, "alt behind a cut", decided, "ac;", Err(Cut), "c;");
    let incomplete = Kind::Incomplete(Needed::Unknown);
    for (kind, want) in [
        (Backtrack, Ok(b'a')),
        (Cut, Err(Cut)),
        (incomplete, Err(incomplete)),
        (Kind::Memory, Err(Kind::Memory)),
    ] {
        let either = combinator::alt((Failing(kind), b'a'));
        answers::<Bytes, u8, AtBytes, _>(&rt, "alt behind a failure", either, "ab", want, "b");
    }
    let one = combinator::alt((b'a',));
    answers::<Bytes, u8, AtBytes, _>(&rt, "alt of one", one, "b", Err(Backtrack), "b");
}

/// A choice among the items of an array, and of a slice.
#[test]
fn alt_of_items(rt: HostRuntime) {
    let rows = [
        ("a;", Ok(b'a'), ";"),
        ("c;", Ok(b'c'), ";"),
        ("d;", Err(Backtrack), "d;"),
    ];
    let array = combinator::alt([b'a', b'b', b'c']);
    answers_each::<Bytes, u8, AtBytes, _>(&rt, "alt of an array", array, &rows);
    for (text, want, rest) in rows {
        let mut items = [b'a', b'b', b'c'];
        let mut slice = combinator::alt(&mut items[..]);
        let got = outcome_of::<Bytes, u8, AtBytes, _>(&mut slice, whole(text));
        same(
            &rt,
            "alt of a slice",
            text,
            got,
            outcome_in_text(want, rest),
        );
    }
}

fn alt_of_letters<I: OfText + Stream<Token = char>, E: ParserError<I>>(rt: &impl Abort) {
    let rows = [
        ("a;", Takes(1), Takes(1)),
        ("c;", Takes(1), Takes(1)),
        ("d;", BACKTRACKS, BACKTRACKS),
        ("", BACKTRACKS, lacks(1)),
    ];
    let tuple = combinator::alt((letter::<I, E>('a'), Fail, letter::<I, E>('c')));
    ends_each::<I, I::Slice, E, _>(rt, "alt of a tuple", tuple, &rows);
    for (text, as_whole, as_cut) in rows {
        let mut items = [letter::<I, E>('a'), letter::<I, E>('c')];
        let mut slice = combinator::alt(&mut items[..]);
        let got = [
            ending_of::<I, I::Slice, E, _>(&mut slice, I::of_text(text)),
            ending_of::<I, I::Slice, E, _>(&mut slice, whole(text)),
        ];
        let want = endings_in_text::<I>(as_whole, as_cut);
        same(rt, "alt of a slice", text, got, want);
    }
}

#[test]
fn alt_on_cut_input(rt: HostRuntime) {
    at_text!(rt; alt_of_letters);
    let both = (
        combinator::alt(('c', Fail, 'a')),
        combinator::alt(('c', Fail, 'a')),
    );
    let name = "alt of a tuple";
    like_ends::<&str, Partial<&str>, char, Modal, _, _>(&rt, name, "aba;", both, Takes(1));
    let mut items = ['c', 'a'];
    let mut slice = combinator::alt(&mut items[..]);
    let got = ending_of::<&str, char, Modal, _>(&mut slice, "aba;");
    same(&rt, "alt of a slice", "aba;", got, Takes(1));
    let mut items = ['c', 'a'];
    let mut slice = combinator::alt(&mut items[..]);
    let got = ending_of::<Partial<&str>, char, Modal, _>(&mut slice, whole("aba;"));
    same(&rt, "alt of a slice", "aba;, whole", got, Takes(1));
}
