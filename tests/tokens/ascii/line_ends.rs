//! Line endings, and the text before one.
use std::fmt::Debug;
use std::process::Abort;
use stream_errors::empty::EmptyError;
use stream_errors::input_error::InputError;
use stream_errors::parser_error::ParserError;
use stream_searches::compare::Compare;
use stream_searches::find::FindSlice;
use streams::needed::Needed;
use streams::partial::Partial;
use streams::stream::Location;
use test_support::outcomes::Ending::{Fails, Takes};
use test_support::outcomes::Kind::{Backtrack, Incomplete};
use test_support::outcomes::{BACKTRACKS, Ending, LACKS, backtracks_behind};
use test_support::rows::{
    Modal, Row, answers, answers_at, ends_each, like_ends, moves_each, slices_each, sweep,
};
use test_support::texts::OfText;
use test_support::{at_located, at_streams};
use winnow_ascii::ascii::impls::{Crlf, LineEnding, Newline, Tab, TillLineEnding};

/// Partial text and bytes.
type CutText = Partial<&'static str>;

type CutBytes = Partial<&'static [u8]>;

/// How a parser ends on cut streams under plain errors.
macro_rules! ends_plainly {
    ($rt:expr; $name:literal, $parser:expr, $rows:expr) => {{
        ends_each::<CutText, _, EmptyError, _>(&$rt, $name, $parser, $rows);
        ends_each::<CutText, _, InputError<CutText>, _>(&$rt, $name, $parser, $rows);
        ends_each::<CutBytes, _, EmptyError, _>(&$rt, $name, $parser, $rows);
        ends_each::<CutBytes, _, InputError<CutBytes>, _>(&$rt, $name, $parser, $rows);
    }};
}

/// Checks how a parser ends on a lone carriage return, and the same parser on the partial stream of
/// it that is marked complete.
macro_rules! like_ends_at_a_return {
    ($rt:expr; $name:literal, $parser:expr) => {{
        let both = || ($parser, $parser);
        like_ends::<&str, CutText, _, Modal, _, _>(&$rt, $name, "\r", both(), BACKTRACKS);
        like_ends::<&[u8], CutBytes, _, Modal, _, _>(&$rt, $name, "\r", both(), BACKTRACKS);
    }};
}

const CRLF_ENDINGS: [Row; 5] = [
    ("\r\n", Takes(2), Takes(2)),
    ("\r", BACKTRACKS, LACKS),
    ("", BACKTRACKS, LACKS),
    ("\n", BACKTRACKS, BACKTRACKS),
    ("\ra", BACKTRACKS, BACKTRACKS),
];

fn crlf_ends<I: OfText + Compare<&'static str>, E: ParserError<I>>(rt: &impl Abort) {
    ends_each::<I, _, E, _>(rt, "crlf", Crlf, &CRLF_ENDINGS);
    let as_whole = [BACKTRACKS, BACKTRACKS, Takes(2), Takes(2)];
    let as_cut = [LACKS, LACKS, Takes(2), Takes(2)];
    sweep::<I, _, E, _>(rt, "crlf", Crlf, "\r\n;", &as_whole, &as_cut);
}

fn crlf_answers<I: OfText + Compare<&'static str>, E: ParserError<I>>(rt: &impl Abort)
where
    I::Slice: PartialEq + Debug,
{
    let rows = [
        ("\r\na", Ok("\r\n"), "a"),
        ("\r\r\n", Err(Backtrack), "\r\r\n"),
        ("\n", Err(Backtrack), "\n"),
    ];
    slices_each::<I, E, _>(rt, "crlf", Crlf, &rows);
}

fn crlf_moves<I: OfText + Location + Compare<&'static str>, E: ParserError<I>>(rt: &impl Abort)
where
    I::Slice: PartialEq + Debug,
{
    moves_each::<I, _, E, _>(rt, "crlf", Crlf, &CRLF_ENDINGS);
    let both = Ok(I::slice_of_text("\r\n"));
    answers_at::<I, _, E, _>(rt, "crlf", Crlf, "\r\na", both, 2);
}

#[test]
fn crlf(rt: HostRuntime) {
    at_streams!(rt; crlf_answers, crlf_ends);
    at_located!(rt; crlf_ends, crlf_moves);
    let plain = [
        ("", BACKTRACKS, BACKTRACKS),
        ("\r", BACKTRACKS, BACKTRACKS),
        ("\r\n", Takes(2), Takes(2)),
    ];
    ends_plainly!(rt; "crlf", Crlf, &plain);
    like_ends_at_a_return!(rt; "crlf", Crlf);
}

const NEWLINE_ENDINGS: [Row; 3] = [
    ("\na", Takes(1), Takes(1)),
    ("\r\n", BACKTRACKS, BACKTRACKS),
    ("", BACKTRACKS, LACKS),
];

fn newline_ends<I: OfText + Compare<char>, E: ParserError<I>>(rt: &impl Abort) {
    ends_each::<I, _, E, _>(rt, "newline", Newline, &NEWLINE_ENDINGS);
}

fn newline_answers<I: OfText + Compare<char>, E: ParserError<I>>(rt: &impl Abort) {
    answers::<I, char, E, _>(rt, "newline", Newline, "\n\n", Ok('\n'), "\n");
}

fn newline_moves<I: OfText + Location + Compare<char>, E: ParserError<I>>(rt: &impl Abort) {
    moves_each::<I, _, E, _>(rt, "newline", Newline, &NEWLINE_ENDINGS);
}

#[test]
fn newline(rt: HostRuntime) {
    at_streams!(rt; newline_answers, newline_ends);
    at_located!(rt; newline_ends, newline_moves);
    ends_plainly!(rt; "newline", Newline, &[("", BACKTRACKS, BACKTRACKS)]);
    like_ends_at_a_return!(rt; "newline", Newline);
}

const TAB_ENDINGS: [Row; 3] = [
    ("\ta", Takes(1), Takes(1)),
    (" ", BACKTRACKS, BACKTRACKS),
    ("", BACKTRACKS, LACKS),
];

fn tab_ends<I: OfText + Compare<char>, E: ParserError<I>>(rt: &impl Abort) {
    ends_each::<I, _, E, _>(rt, "tab", Tab, &TAB_ENDINGS);
}

fn tab_answers<I: OfText + Compare<char>, E: ParserError<I>>(rt: &impl Abort) {
    answers::<I, char, E, _>(rt, "tab", Tab, "\t\t", Ok('\t'), "\t");
}

fn tab_moves<I: OfText + Location + Compare<char>, E: ParserError<I>>(rt: &impl Abort) {
    moves_each::<I, _, E, _>(rt, "tab", Tab, &TAB_ENDINGS);
}

#[test]
fn tab(rt: HostRuntime) {
    at_streams!(rt; tab_answers, tab_ends);
    at_located!(rt; tab_ends, tab_moves);
    ends_plainly!(rt; "tab", Tab, &[("", BACKTRACKS, BACKTRACKS)]);
    like_ends_at_a_return!(rt; "tab", Tab);
}

const LINE_ENDING_ENDINGS: [Row; 5] = [
    ("\n", Takes(1), Takes(1)),
    ("\r\n", Takes(2), Takes(2)),
    ("\r", BACKTRACKS, LACKS),
    ("", BACKTRACKS, LACKS),
    ("\r\r", BACKTRACKS, BACKTRACKS),
];

fn line_ending_ends<I: OfText + Compare<&'static str>, E: ParserError<I>>(rt: &impl Abort) {
    ends_each::<I, _, E, _>(rt, "line_ending", LineEnding, &LINE_ENDING_ENDINGS);
    let as_whole = [BACKTRACKS, BACKTRACKS, Takes(2), Takes(2)];
    let as_cut = [LACKS, LACKS, Takes(2), Takes(2)];
    sweep::<I, _, E, _>(rt, "line_ending", LineEnding, "\r\n;", &as_whole, &as_cut);
    let as_whole = [BACKTRACKS, Takes(1), Takes(1)];
    let as_cut = [LACKS, Takes(1), Takes(1)];
    sweep::<I, _, E, _>(rt, "line_ending", LineEnding, "\n\n", &as_whole, &as_cut);
}

fn line_ending_answers<I: OfText + Compare<&'static str>, E: ParserError<I>>(rt: &impl Abort)
where
    I::Slice: PartialEq + Debug,
{
    let rows = [
        ("\na", Ok("\n"), "a"),
        ("\r\na", Ok("\r\n"), "a"),
        ("\n\r\n", Ok("\n"), "\r\n"),
        ("\ra", Err(Backtrack), "\ra"),
        ("a\n", Err(Backtrack), "a\n"),
    ];
    slices_each::<I, E, _>(rt, "line_ending", LineEnding, &rows);
}

fn line_ending_moves<I: OfText + Location + Compare<&'static str>, E: ParserError<I>>(
    rt: &impl Abort,
)
where
    I::Slice: PartialEq + Debug,
{
    moves_each::<I, _, E, _>(rt, "line_ending", LineEnding, &LINE_ENDING_ENDINGS);
    let feed = Ok(I::slice_of_text("\n"));
    answers_at::<I, _, E, _>(rt, "line_ending", LineEnding, "\n\n", feed, 1);
}

#[test]
fn line_ending(rt: HostRuntime) {
    at_streams!(rt; line_ending_answers, line_ending_ends);
    at_located!(rt; line_ending_ends, line_ending_moves);
    let plain = [
        ("", BACKTRACKS, BACKTRACKS),
        ("\r", BACKTRACKS, BACKTRACKS),
        ("\n", Takes(1), Takes(1)),
        ("\r\n", Takes(2), Takes(2)),
    ];
    ends_plainly!(rt; "line_ending", LineEnding, &plain);
    like_ends_at_a_return!(rt; "line_ending", LineEnding);
}

/// The ending of a call that needs an unknown number of units after `taken` units.
fn lacks_behind(taken: usize) -> Ending {
    Fails(Incomplete(Needed::Unknown), taken)
}

fn till_endings() -> [Row; 7] {
    [
        ("ab\r\n", Takes(2), Takes(2)),
        ("ab\n", Takes(2), Takes(2)),
        ("ab", Takes(2), LACKS),
        ("", Takes(0), LACKS),
        ("\n", Takes(0), Takes(0)),
        ("ab\r", Fails(Backtrack, 2), lacks_behind(2)),
        ("ab\rc", Fails(Backtrack, 2), Fails(Backtrack, 2)),
    ]
}

fn till_line_ending_ends<I, E: ParserError<I>>(rt: &impl Abort)
where
    I: OfText + Compare<&'static str> + FindSlice<(char, char)>,
{
    let name = "till_line_ending";
    ends_each::<I, _, E, _>(rt, name, TillLineEnding, &till_endings());
    let back = backtracks_behind(1);
    let as_whole = [Takes(0), Takes(1), back, Takes(1), Takes(1)];
    let as_cut = [LACKS, LACKS, lacks_behind(1), Takes(1), Takes(1)];
    sweep::<I, _, E, _>(rt, name, TillLineEnding, "a\r\nb", &as_whole, &as_cut);
    let as_whole = [Takes(0), Takes(1), back, back];
    let as_cut = [LACKS, LACKS, lacks_behind(1), back];
    sweep::<I, _, E, _>(rt, name, TillLineEnding, "a\rb", &as_whole, &as_cut);
}

fn till_line_ending_answers<I, E: ParserError<I>>(rt: &impl Abort)
where
    I: OfText + Compare<&'static str> + FindSlice<(char, char)>,
    I::Slice: PartialEq + Debug,
{
    let rows = [
        ("ab\r\n", Ok("ab"), "\r\n"),
        ("ab\nc\r\n", Ok("ab"), "\nc\r\n"),
        ("ab", Ok("ab"), ""),
        ("", Ok(""), ""),
        ("\n", Ok(""), "\n"),
        ("é\n\r", Ok("é"), "\n\r"),
        ("ab\rc", Err(Backtrack), "\rc"),
        ("ab\r", Err(Backtrack), "\r"),
        ("é\r\r\n", Err(Backtrack), "\r\r\n"),
    ];
    slices_each::<I, E, _>(rt, "till_line_ending", TillLineEnding, &rows);
}

fn till_line_ending_moves<I, E: ParserError<I>>(rt: &impl Abort)
where
    I: OfText + Location + Compare<&'static str> + FindSlice<(char, char)>,
    I::Slice: PartialEq + Debug,
{
    let name = "till_line_ending";
    moves_each::<I, _, E, _>(rt, name, TillLineEnding, &till_endings());
    let line = Ok(I::slice_of_text("é"));
    answers_at::<I, _, E, _>(rt, name, TillLineEnding, "é\r\n", line, 2);
    answers_at::<I, _, E, _>(rt, name, TillLineEnding, "é\rb", Err(Backtrack), 2);
}

#[test]
fn till_line_ending(rt: HostRuntime) {
    at_streams!(rt; till_line_ending_answers, till_line_ending_ends);
    at_located!(rt; till_line_ending_ends, till_line_ending_moves);
    let lone = backtracks_behind(2);
    let plain = [
        ("ab", Takes(2), Takes(2)),
        ("", Takes(0), Takes(0)),
        ("ab\r", lone, lone),
        ("ab\rc", lone, lone),
        ("ab\r\n", Takes(2), Takes(2)),
        ("ab\n", Takes(2), Takes(2)),
    ];
    ends_plainly!(rt; "till_line_ending", TillLineEnding, &plain);
    like_ends_at_a_return!(rt; "till_line_ending", TillLineEnding);
}
