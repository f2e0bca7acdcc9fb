//! Classes of characters.
use std::fmt::Debug;
use std::process::Abort;
use stream_errors::empty::EmptyError;
use stream_errors::parser_error::ParserError;
use stream_sets::as_char::AsChar;
use streams::locating::LocatingSlice;
use streams::partial::Partial;
use test_support::at_streams;
use test_support::outcomes::Ending::Takes;
use test_support::outcomes::Kind::Backtrack;
use test_support::outcomes::{BACKTRACKS, lacks};
use test_support::rows::{
    Modal, ModalAt, answers_each, ends, ends_each, like_ends, moves_each, slices_each,
};
use test_support::texts::OfText;
use winnow_ascii::ascii;
use winnow_ascii::ascii::impls::{
    Alpha0, Alpha1, Alphanumeric0, Alphanumeric1, Digit0, Digit1, HexDigit0, HexDigit1,
    Multispace0, Multispace1, OctDigit0, OctDigit1, Space0, Space1,
};
use winnow_core::parser::{Func, Parser};

/// A text, and the lengths of its longest prefixes of letters, digits, hexadecimal digits, octal
/// digits, letters and digits, spaces, and spaces and line endings.
const COUNTS: [(&'static str, [usize; 7]); 12] = [
    ("ab1;", [2, 0, 3, 0, 3, 0, 0]),
    ("179z", [0, 3, 3, 2, 4, 0, 0]),
    ("Fg", [2, 0, 1, 0, 2, 0, 0]),
    ("07", [0, 2, 2, 2, 2, 0, 0]),
    ("8", [0, 1, 1, 0, 1, 0, 0]),
    (" \t\r\n", [0, 0, 0, 0, 0, 2, 4]),
    ("aé", [1, 0, 1, 0, 1, 0, 0]),
    ("٣", [0, 0, 0, 0, 0, 0, 0]),
    ("@[`{/:", [0, 0, 0, 0, 0, 0, 0]),
    ("", [0, 0, 0, 0, 0, 0, 0]),
    ("abc123def", [3, 0, 9, 0, 9, 0, 0]),
    ("123def", [0, 3, 6, 3, 6, 0, 0]),
];

/// Checks that a parser of at least `least` members ends as its column of the counts requires.
fn counted<I: OfText, O: Drop, E: ParserError<I>, P: Parser<I, O, E> + Copy>(
    rt: &impl Abort,
    name: &str,
    parser: P,
    least: usize,
    column: usize,
) {
    for (text, members) in COUNTS {
        let members = members[column];
        let as_whole = if members < least {
            BACKTRACKS
        } else {
            Takes(members)
        };
        let as_cut = if members == text.len() {
            lacks(1)
        } else {
            as_whole
        };
        ends::<I, O, E, P>(rt, name, parser, (text, as_whole, as_cut));
    }
}

/// The same at text and at bytes.
macro_rules! counted {
    ($rt:expr; $name:literal, $parser:expr, $least:expr, $column:expr) => {{
        counted::<&str, _, Modal, _>(&$rt, $name, $parser, $least, $column);
        counted::<Partial<&str>, _, Modal, _>(&$rt, $name, $parser, $least, $column);
        counted::<&[u8], _, ModalAt<&[u8]>, _>(&$rt, $name, $parser, $least, $column);
        counted::<Partial<&[u8]>, _, Modal, _>(&$rt, $name, $parser, $least, $column);
        counted::<&[u8], _, EmptyError, _>(&$rt, $name, $parser, $least, $column);
    }};
}

#[test]
fn alpha0(rt: HostRuntime) {
    counted!(rt; "alpha0", Alpha0, 0, 0);
}

#[test]
fn alpha1(rt: HostRuntime) {
    counted!(rt; "alpha1", Alpha1, 1, 0);
    counted!(rt; "(alpha1,)", (Alpha1,), 1, 0);
    let rows = [
        ("abc123def", Ok(("abc",)), "123def"),
        ("123def", Err(Backtrack), "123def"),
    ];
    answers_each::<&str, (&str,), Modal, _>(&rt, "(alpha1,)", (Alpha1,), &rows);
}

#[test]
fn digit0(rt: HostRuntime) {
    counted!(rt; "digit0", Digit0, 0, 1);
}

#[test]
fn hex_digit0(rt: HostRuntime) {
    counted!(rt; "hex_digit0", HexDigit0, 0, 2);
}

#[test]
fn hex_digit1(rt: HostRuntime) {
    counted!(rt; "hex_digit1", HexDigit1, 1, 2);
}

#[test]
fn oct_digit0(rt: HostRuntime) {
    counted!(rt; "oct_digit0", OctDigit0, 0, 3);
}

#[test]
fn oct_digit1(rt: HostRuntime) {
    counted!(rt; "oct_digit1", OctDigit1, 1, 3);
}

#[test]
fn alphanumeric0(rt: HostRuntime) {
    counted!(rt; "alphanumeric0", Alphanumeric0, 0, 4);
}

#[test]
fn space1(rt: HostRuntime) {
    counted!(rt; "space1", Space1, 1, 5);
}

#[test]
fn multispace0(rt: HostRuntime) {
    counted!(rt; "multispace0", Multispace0, 0, 6);
}

fn digit1_at<I: OfText, E: ParserError<I>>(rt: &impl Abort)
where
    I::Token: AsChar,
    I::Slice: PartialEq + Debug,
{
    let answers = [
        ("12;", Ok("12"), ";"),
        ("0", Ok("0"), ""),
        ("9:", Ok("9"), ":"),
        ("1a", Ok("1"), "a"),
        (";12", Err(Backtrack), ";12"),
        ("/", Err(Backtrack), "/"),
        (":", Err(Backtrack), ":"),
        ("", Err(Backtrack), ""),
        ("٣", Err(Backtrack), "٣"),
    ];
    slices_each::<I, E, _>(rt, "Digit1", Digit1, &answers);
    slices_each::<I, E, _>(rt, "digit1", Func(ascii::digit1::<I, E>), &answers);
    let endings = [
        ("12;", Takes(2), Takes(2)),
        ("12", Takes(2), lacks(1)),
        ("", BACKTRACKS, lacks(1)),
        (";1", BACKTRACKS, BACKTRACKS),
        ("/", BACKTRACKS, BACKTRACKS),
        (":", BACKTRACKS, BACKTRACKS),
        ("1٣", Takes(1), Takes(1)),
        ("٣", BACKTRACKS, BACKTRACKS),
        ("7€", Takes(1), Takes(1)),
        ("𝟗1", BACKTRACKS, BACKTRACKS),
    ];
    ends_each::<I, _, E, _>(rt, "digit1", Digit1, &endings);
}

fn alphanumeric1_at<I: OfText, E: ParserError<I>>(rt: &impl Abort)
where
    I::Token: AsChar,
    I::Slice: PartialEq + Debug,
{
    let answers = [
        ("a1Z;", Ok("a1Z"), ";"),
        ("AZaz09_", Ok("AZaz09"), "_"),
        ("z", Ok("z"), ""),
        ("aé", Ok("a"), "é"),
        ("_a", Err(Backtrack), "_a"),
        ("@", Err(Backtrack), "@"),
        ("[", Err(Backtrack), "["),
        ("`", Err(Backtrack), "`"),
        ("{", Err(Backtrack), "{"),
        ("", Err(Backtrack), ""),
        ("é", Err(Backtrack), "é"),
    ];
    slices_each::<I, E, _>(rt, "Alphanumeric1", Alphanumeric1, &answers);
    let function = Func(ascii::alphanumeric1::<I, E>);
    slices_each::<I, E, _>(rt, "alphanumeric1", function, &answers);
    let endings = [
        ("aZ9;", Takes(3), Takes(3)),
        ("Az0", Takes(3), lacks(1)),
        ("", BACKTRACKS, lacks(1)),
        ("_a", BACKTRACKS, BACKTRACKS),
        ("a_", Takes(1), Takes(1)),
        ("aé", Takes(1), Takes(1)),
        ("é", BACKTRACKS, BACKTRACKS),
        ("z漢", Takes(1), Takes(1)),
        ("𝐚a", BACKTRACKS, BACKTRACKS),
    ];
    ends_each::<I, _, E, _>(rt, "alphanumeric1", Alphanumeric1, &endings);
}

fn space0_at<I: OfText, E: ParserError<I>>(rt: &impl Abort)
where
    I::Token: AsChar,
    I::Slice: PartialEq + Debug,
{
    let answers = [
        (" \ta", Ok(" \t"), "a"),
        ("  ", Ok("  "), ""),
        (" \n", Ok(" "), "\n"),
        ("a ", Ok(""), "a "),
        ("\r", Ok(""), "\r"),
        ("", Ok(""), ""),
        ("\u{a0}", Ok(""), "\u{a0}"),
    ];
    slices_each::<I, E, _>(rt, "Space0", Space0, &answers);
    slices_each::<I, E, _>(rt, "space0", Func(ascii::space0::<I, E>), &answers);
    let endings = [
        (" \ta", Takes(2), Takes(2)),
        (" \t", Takes(2), lacks(1)),
        ("", Takes(0), lacks(1)),
        ("a ", Takes(0), Takes(0)),
        ("\n", Takes(0), Takes(0)),
        ("\u{a0}", Takes(0), Takes(0)),
        (" \u{2003}", Takes(1), Takes(1)),
        ("\t😀", Takes(1), Takes(1)),
    ];
    ends_each::<I, _, E, _>(rt, "space0", Space0, &endings);
}

fn multispace1_at<I: OfText, E: ParserError<I>>(rt: &impl Abort)
where
    I::Token: AsChar,
    I::Slice: PartialEq + Debug,
{
    let answers = [
        (" \t\r\na", Ok(" \t\r\n"), "a"),
        ("\n", Ok("\n"), ""),
        ("\r\n ;", Ok("\r\n "), ";"),
        ("a ", Err(Backtrack), "a "),
        ("\u{b}", Err(Backtrack), "\u{b}"),
        ("\u{c}", Err(Backtrack), "\u{c}"),
        ("", Err(Backtrack), ""),
        ("\u{a0}", Err(Backtrack), "\u{a0}"),
    ];
    slices_each::<I, E, _>(rt, "Multispace1", Multispace1, &answers);
    let function = Func(ascii::multispace1::<I, E>);
    slices_each::<I, E, _>(rt, "multispace1", function, &answers);
    let endings = [
        (" \t\r\na", Takes(4), Takes(4)),
        ("\r\n", Takes(2), lacks(1)),
        ("", BACKTRACKS, lacks(1)),
        ("a ", BACKTRACKS, BACKTRACKS),
        ("\u{b}", BACKTRACKS, BACKTRACKS),
        ("\u{a0} ", BACKTRACKS, BACKTRACKS),
        (" \u{2028}", Takes(1), Takes(1)),
        ("\n😀", Takes(1), Takes(1)),
    ];
    ends_each::<I, _, E, _>(rt, "multispace1", Multispace1, &endings);
}

/// How far a parser moves the place in each of these, at text and at bytes; and how it ends on a
/// whole stream, and the same parser on the partial one of it that is marked complete.
macro_rules! moves {
    ($rt:expr; $name:literal, $parser:expr, $ends:expr, $like:expr) => {{
        let texts = ["12a;", "", "a1", " \n1", "\n", "٣", "0é", "\t€", "😀1"];
        for (text, end) in texts.into_iter().zip($ends) {
            let rows = [(text, end, end)];
            moves_each::<LocatingSlice<&str>, _, Modal, _>(&$rt, $name, $parser, &rows);
            moves_each::<LocatingSlice<&[u8]>, _, Modal, _>(&$rt, $name, $parser, &rows);
        }
        let both = || ($parser, $parser);
        like_ends::<&str, Partial<&str>, &str, Modal, _, _>(&$rt, $name, "1a; ", both(), $like);
        like_ends::<&[u8], Partial<&[u8]>, &[u8], Modal, _, _>(
            &$rt,
            $name,
            "1a; ",
            both(),
            $like,
        );
    }};
}

#[test]
fn digit1(rt: HostRuntime) {
    at_streams!(rt; digit1_at);
    counted!(rt; "digit1", Digit1, 1, 1);
    let (none, one, two) = (BACKTRACKS, Takes(1), Takes(2));
    let ends = [two, none, none, none, none, none, one, none, none];
    moves!(rt; "digit1", Digit1, ends, Takes(1));
}

#[test]
fn alphanumeric1(rt: HostRuntime) {
    at_streams!(rt; alphanumeric1_at);
    counted!(rt; "alphanumeric1", Alphanumeric1, 1, 4);
    let (none, one, two, three) = (BACKTRACKS, Takes(1), Takes(2), Takes(3));
    let ends = [three, none, two, none, none, none, one, none, none];
    moves!(rt; "alphanumeric1", Alphanumeric1, ends, Takes(2));
}

#[test]
fn space0(rt: HostRuntime) {
    at_streams!(rt; space0_at);
    counted!(rt; "space0", Space0, 0, 5);
    let (zero, one) = (Takes(0), Takes(1));
    let ends = [zero, zero, zero, one, zero, zero, zero, one, zero];
    moves!(rt; "space0", Space0, ends, Takes(0));
}

#[test]
fn multispace1(rt: HostRuntime) {
    at_streams!(rt; multispace1_at);
    counted!(rt; "multispace1", Multispace1, 1, 6);
    let (none, one, two) = (BACKTRACKS, Takes(1), Takes(2));
    let ends = [none, none, none, two, one, none, none, one, none];
    moves!(rt; "multispace1", Multispace1, ends, BACKTRACKS);
}
