//! Text with escapes, as a slice.
use super::{AtBytes, Bytes, Plain, REFUSALS, lacks_behind};
use std::fmt::Debug;
use std::process::Abort;
use stream_errors::control::ControlError;
use stream_errors::parser_error::ParserError;
use stream_searches::compare::Compare;
use stream_sets::as_char::AsChar;
use streams::partial::Partial;
use streams::stream::StreamIsPartial;
use test_support::failing::{Failing, HARD};
use test_support::outcomes::Ending::{self, Fails, Takes};
use test_support::outcomes::Kind::{Backtrack, Cut, Memory};
use test_support::outcomes::{BACKTRACKS, CUTS, LACKS, backtracks_behind, lacks, lacks_one_behind};
use test_support::rows::{Modal, ends, ends_each, like_ends, slices_each, sweep};
use test_support::texts::OfText;
use test_support::{at_located, at_text};
use winnow_ascii::ascii::impls::{Alpha1, Digit1};
use winnow_comb::combinator::impls::{Empty, Fail};
use winnow_core::parser::Parser;
use winnow_escapes::ascii;
use winnow_escapes::ascii::impls::TakeEscaped;
use winnow_token::token::impls::{Any, OneOf};
use winnow_token::token::one_of;

/// The parser, at a stream and an error.
fn make<N, K, X, I, O, D, P, E>(
    normal: N,
    control: K,
    escapable: X,
) -> TakeEscaped<N, K, X, I, O, D, P, E>
where
    N: Parser<I, O, E>,
    K: Parser<I, D, ControlError>,
    X: Parser<I, P, E>,
    I: StreamIsPartial,
    O: Drop,
    D: Drop,
    P: Drop,
    E: ParserError<I>,
{
    ascii::take_escaped(normal, control, escapable)
}

/// Digits, with a backslash before a quotation mark or an `n`.
fn digits<I: OfText + Compare<char>, E: ParserError<I>>(rt: &impl Abort)
where
    I::Token: AsChar + Copy,
    I::Slice: PartialEq + Debug,
{
    let name = "take_escaped(digit1, backslash, one_of)";
    let text = make::<_, _, _, I, _, char, _, E>(Digit1, '\\', one_of(['"', 'n']));
    slices_each::<I, E, _>(
        rt,
        name,
        text,
        &[
            ("12\\\"34;", Ok("12\\\"34"), ";"),
            ("\\n\\n12x", Ok("\\n\\n12"), "x"),
            ("12\\n", Ok("12\\n"), ""),
            ("", Ok(""), ""),
            ("x", Ok(""), "x"),
            ("1\\x", Err(Backtrack), "x"),
            ("1\\", Err(Backtrack), ""),
        ],
    );
    let text = make::<_, _, _, I, _, char, _, E>(Digit1, '\\', one_of(['"', 'n']));
    ends_each::<I, _, E, _>(
        rt,
        name,
        text,
        &[
            ("12\\\"34;", Takes(6), Takes(6)),
            ("12\\\"34", Takes(6), lacks_one_behind(4)),
            ("12\\n", Takes(4), lacks_behind(4)),
            ("12\\", backtracks_behind(3), lacks_one_behind(3)),
            ("1\\x", backtracks_behind(2), backtracks_behind(2)),
            ("x", Takes(0), Takes(0)),
            ("", Takes(0), LACKS),
        ],
    );
}

/// Every prefix of a text, as complete and as partial input.
fn beginnings<I: OfText + Compare<char>, E: ParserError<I>>(rt: &impl Abort)
where
    I::Token: AsChar + Copy,
{
    let text = make::<_, _, _, I, _, char, _, E>(Alpha1, '\\', one_of(['\\', 'n']));
    let as_whole = [
        Takes(0),
        Takes(1),
        Takes(2),
        backtracks_behind(3),
        Takes(4),
        Takes(5),
        Takes(6),
        Takes(6),
    ];
    let as_cut = [
        LACKS,
        lacks(1),
        lacks(1),
        lacks_one_behind(3),
        lacks_behind(4),
        lacks_one_behind(4),
        lacks_one_behind(4),
        Takes(6),
    ];
    sweep::<I, _, E, _>(rt, "take_escaped", text, "ab\\ncd;", &as_whole, &as_cut);
    let text = make::<OneOf<_, _, _>, _, _, I, _, char, _, E>(one_of('a'..='z'), '\\', Any);
    let as_whole = [
        Takes(0),
        Takes(1),
        backtracks_behind(2),
        Takes(3),
        Takes(4),
        Takes(4),
    ];
    let as_cut = [
        LACKS,
        lacks_behind(1),
        lacks_one_behind(2),
        lacks_behind(3),
        lacks_behind(4),
        Takes(4),
    ];
    sweep::<I, _, E, _>(rt, "take_escaped", text, "a\\\\b;", &as_whole, &as_cut);
}

/// The control is tried at the start of the turn; input that is not the start of a turn remains.
fn controls<I: OfText + Compare<char>, E: ParserError<I>>(rt: &impl Abort)
where
    I::Token: AsChar + Copy,
{
    let text = make::<_, _, _, I, u8, char, char, E>(Failing(Backtrack), 'a', 'b');
    let rows = [
        ("abab;", Takes(4), Takes(4)),
        ("aba", backtracks_behind(3), lacks_behind(3)),
        ("b", Takes(0), Takes(0)),
    ];
    ends_each::<I, _, E, _>(rt, "take_escaped(a failure, 'a', 'b')", text, &rows);
    for kind in REFUSALS {
        let text = make::<_, _, _, I, _, u8, _, E>(Alpha1, Failing(kind), Any);
        let row = ("ab;-", Takes(3), Takes(3));
        ends::<I, _, E, _>(rt, "take_escaped(alpha1, a refusal, any)", text, row);
    }
    let text = make::<_, _, _, I, _, u8, _, E>(Alpha1, Failing(Memory), Any);
    let end = Fails(Memory, 3);
    ends::<I, _, E, _>(rt, "take_escaped(alpha1, no memory, any)", text, ("ab;-", end, end));
}

/// Failures of each kind.
fn failures<I: OfText + Compare<char>, E: ParserError<I>>(rt: &impl Abort) {
    for kind in HARD {
        let text = make::<_, _, _, I, u8, char, char, E>(Failing(kind), 'a', 'b');
        let row = ("ab", Fails(kind, 1), Fails(kind, 1));
        ends::<I, _, E, _>(rt, "take_escaped(a failure, 'a', 'b')", text, row);
    }
    for kind in [Backtrack, HARD[0], HARD[1], HARD[2]] {
        let text = make::<_, _, _, I, (), char, u8, E>(Fail, 'a', Failing(kind));
        let row = ("abc", Fails(kind, 2), Fails(kind, 2));
        ends::<I, _, E, _>(rt, "take_escaped(fail, 'a', a failure)", text, row);
    }
}

#[test]
fn take_escaped(rt: HostRuntime) {
    at_text!(rt; digits, beginnings, controls, failures);
    digits::<Bytes, AtBytes>(&rt);
    digits::<Partial<Bytes>, Modal>(&rt);
    beginnings::<Partial<Bytes>, Modal>(&rt);
    controls::<Partial<Bytes>, Modal>(&rt);
    failures::<Partial<Bytes>, Modal>(&rt);
    at_located!(rt; beginnings);
}

/// If the control fails, the input that it consumed stays consumed, also if it was only incomplete.
#[test]
fn take_escaped_up_to_a_refused_control(rt: HostRuntime) {
    let pair = make::<_, _, _, &str, _, (char, char), _, Modal>(Alpha1, ('\\', '\\'), Any);
    let rows = [
        ("a\\b", Ok("a\\"), "b"),
        ("a\\\\b;", Ok("a\\\\b"), ";"),
        ("a\\", Ok("a\\"), ""),
    ];
    slices_each::<&str, Modal, _>(&rt, "take_escaped(alpha1, a pair, any)", pair, &rows);
    let pair = make::<_, _, _, Partial<&str>, _, (char, char), _, Modal>(Alpha1, ('\\', '\\'), Any);
    let rows = [
        ("a\\b", Takes(2), Takes(2)),
        ("a\\", Takes(2), Takes(2)),
        ("a\\\\", backtracks_behind(3), lacks_one_behind(3)),
    ];
    ends_each::<Partial<&str>, _, Modal, _>(&rt, "take_escaped(alpha1, a pair, any)", pair, &rows);
    let two = make::<_, _, _, Partial<&str>, _, &str, _, Modal>(Alpha1, "\\\\", Any);
    let rows = [
        ("a\\", Takes(1), Takes(1)),
        ("a\\\\b;", Takes(4), Takes(4)),
    ];
    ends_each::<Partial<&str>, _, Modal, _>(&rt, "take_escaped(alpha1, a text, any)", two, &rows);
}

/// A turn must consume; at the end of the input none is run.
#[test]
fn take_escaped_of_nothing(rt: HostRuntime) {
    let text = make::<_, _, _, Partial<&str>, _, (), (), Modal>(Alpha1, Empty, Empty);
    let rows = [
        ("1", CUTS, CUTS),
        ("a1", Fails(Cut, 1), Fails(Cut, 1)),
        ("", Takes(0), LACKS),
    ];
    ends_each::<_, _, Modal, _>(&rt, "take_escaped(alpha1, empty, empty)", text, &rows);
    let text = make::<_, _, _, Partial<&str>, (), char, char, Modal>(Empty, 'a', 'b');
    let rows = [("ab", CUTS, CUTS), ("", Takes(0), LACKS)];
    ends_each::<_, _, Modal, _>(&rt, "take_escaped(empty, 'a', 'b')", text, &rows);
    let text = make::<_, _, _, Bytes, _, (), (), Plain>(Alpha1, Empty, Empty);
    let rows = [("1", BACKTRACKS, BACKTRACKS), ("a", Takes(1), Takes(1))];
    ends_each::<_, _, Plain, _>(&rt, "take_escaped(alpha1, empty, empty)", text, &rows);
}

/// Under plain errors the end of partial input is a backtrack.
#[test]
fn take_escaped_plainly(rt: HostRuntime) {
    type CutText = Partial<&'static str>;
    let text = make::<_, _, _, CutText, char, char, char, stream_errors::empty::EmptyError>(
        'a', '\\', Any,
    );
    let rows: [(&str, Ending, Ending); 2] = [
        ("aa", Takes(2), backtracks_behind(2)),
        ("aa;", Takes(2), Takes(2)),
    ];
    ends_each::<CutText, _, _, _>(&rt, "take_escaped('a', backslash, any)", text, &rows);
}

/// The plain stream and the partial stream that is marked complete give the same results.
#[test]
fn take_escaped_on_like_streams(rt: HostRuntime) {
    for (text, want) in [
        ("12\\n3;", Takes(5)),
        ("12\\n", Takes(4)),
        ("12\\", backtracks_behind(3)),
        ("1\\x", backtracks_behind(2)),
    ] {
        let first = make::<_, _, _, &str, _, char, char, Modal>(Digit1, '\\', 'n');
        let like = make::<_, _, _, Partial<&str>, _, char, char, Modal>(Digit1, '\\', 'n');
        let both = (first, like);
        like_ends::<&str, Partial<&str>, &str, Modal, _, _>(&rt, "take_escaped", text, both, want);
    }
}
