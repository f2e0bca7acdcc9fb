//! Numbers as text.
use std::process::Abort;
use stream_errors::empty::EmptyError;
use stream_errors::input_error::InputError;
use stream_errors::parser_error::ParserError;
use stream_sets::as_bstr::{AsBStr, SlicesAsBytes};
use stream_sets::as_char::AsChar;
use streams::needed::Needed;
use streams::partial::Partial;
use streams::stream::Location;
use test_support::outcomes::Ending::Takes;
use test_support::outcomes::Kind::{Backtrack, Incomplete};
use test_support::outcomes::{BACKTRACKS, backtracks_behind, lacks, lacks_one_behind};
use test_support::rows::{
    Modal, Row, answers, answers_at, answers_each, answers_on_cut, ends_each, like_ends,
    moves_each, sweep,
};
use test_support::texts::OfText;
use test_support::{at_located, at_streams};
use winnow_numbers::ascii::impls::{DecInt, DecUint, HexUintParser};
use winnow_token::token::impls::Any;

/// Partial text and bytes.
type CutText = Partial<&'static str>;

type CutBytes = Partial<&'static [u8]>;

/// How a parser of such a number ends on cut streams under plain errors.
macro_rules! ends_plainly {
    ($rt:expr; $name:literal, $output:ty, $parser:expr, $rows:expr) => {{
        ends_each::<CutText, $output, EmptyError, _>(&$rt, $name, $parser, $rows);
        ends_each::<CutText, $output, InputError<CutText>, _>(&$rt, $name, $parser, $rows);
        ends_each::<CutBytes, $output, EmptyError, _>(&$rt, $name, $parser, $rows);
        ends_each::<CutBytes, $output, InputError<CutBytes>, _>(&$rt, $name, $parser, $rows);
    }};
}

/// Checks the result of a parser of such a number on partial text and on partial bytes, and the
/// rest.
macro_rules! answers_on_cut {
    ($rt:expr; $name:literal, $output:ty, $parser:expr, $rows:expr) => {{
        for row in $rows {
            answers_on_cut::<CutText, $output, Modal, _>(&$rt, $name, &mut $parser, row);
            answers_on_cut::<CutBytes, $output, Modal, _>(&$rt, $name, &mut $parser, row);
        }
    }};
}

/// How a parser of such a number ends on two digits, and the same parser on the partial stream of
/// them that is marked complete.
macro_rules! like_ends_at_digits {
    ($rt:expr; $name:literal, $output:ty, $parser:expr) => {{
        let both = || ($parser, $parser);
        like_ends::<&str, CutText, $output, Modal, _, _>(&$rt, $name, "12", both(), Takes(2));
        like_ends::<&[u8], CutBytes, $output, Modal, _, _>(&$rt, $name, "12", both(), Takes(2));
    }};
}

fn dec_uint_answers<I: OfText + SlicesAsBytes, E: ParserError<I>>(rt: &impl Abort)
where
    I::Token: AsChar,
    I::Slice: AsBStr,
{
    let rows = [
        ("0", Ok(0), ""),
        ("01", Ok(0), "1"),
        ("12;", Ok(12), ";"),
        ("255", Ok(255), ""),
        ("256", Err(Backtrack), "256"),
        ("300a", Err(Backtrack), "300a"),
        ("+1", Err(Backtrack), "+1"),
        ("", Err(Backtrack), ""),
        ("٣", Err(Backtrack), "٣"),
        ("7,8,9,10,11,12,13", Ok(7), ",8,9,10,11,12,13"),
        ("255:255:255:255:255", Ok(255), ":255:255:255:255"),
        ("256/256/256/256/256", Err(Backtrack), "256/256/256/256/256"),
        ("0800 is not octal", Ok(0), "800 is not octal"),
        ("12é has an accent", Ok(12), "é has an accent"),
    ];
    answers_each::<I, u8, E, _>(rt, "dec_uint::<u8>", DecUint, &rows);
    let most = "18446744073709551615";
    let more = "18446744073709551616";
    // Where 16 bytes and more are there, they are read at once.
    let rows = [
        ("1;00000000000000", Ok(1), ";00000000000000"),
        ("12345678;12345678", Ok(12_345_678), ";12345678"),
        ("987654321012345;", Ok(987_654_321_012_345), ";"),
        ("999999999999999:", Ok(999_999_999_999_999), ":"),
        ("9876543210123456;", Ok(9_876_543_210_123_456), ";"),
        (
            "1000000000000000000000",
            Err(Backtrack),
            "1000000000000000000000",
        ),
        ("+123456789012345", Err(Backtrack), "+123456789012345"),
        (most, Ok(u64::MAX), ""),
        (more, Err(Backtrack), more),
    ];
    answers_each::<I, u64, E, _>(rt, "dec_uint::<u64>", DecUint, &rows);
}

/// How `dec_uint` of a byte ends.
fn dec_uint_endings() -> [Row; 12] {
    [
        ("", BACKTRACKS, lacks(1)),
        ("0", Takes(1), Takes(1)),
        ("01", Takes(1), Takes(1)),
        ("9", Takes(1), lacks_one_behind(1)),
        ("12", Takes(2), lacks_one_behind(1)),
        ("12;", Takes(2), Takes(2)),
        ("255", Takes(3), lacks_one_behind(1)),
        ("999", BACKTRACKS, lacks_one_behind(1)),
        ("999;", BACKTRACKS, BACKTRACKS),
        ("128; and so forth", Takes(3), Takes(3)),
        ("+1", BACKTRACKS, BACKTRACKS),
        (";", BACKTRACKS, BACKTRACKS),
    ]
}

fn dec_uint_ends<I: OfText + SlicesAsBytes, E: ParserError<I>>(rt: &impl Abort)
where
    I::Token: AsChar,
    I::Slice: AsBStr,
{
    ends_each::<I, u8, E, _>(rt, "dec_uint", DecUint, &dec_uint_endings());
    let more = lacks_one_behind(1);
    let as_whole = [BACKTRACKS, Takes(1), Takes(2), Takes(3), Takes(3)];
    let as_cut = [lacks(1), more, more, more, Takes(3)];
    sweep::<I, u8, E, _>(rt, "dec_uint", DecUint, "127;", &as_whole, &as_cut);
}

fn dec_uint_moves<I: OfText + Location + SlicesAsBytes, E: ParserError<I>>(rt: &impl Abort)
where
    I::Token: AsChar,
    I::Slice: AsBStr,
{
    moves_each::<I, u8, E, _>(rt, "dec_uint", DecUint, &dec_uint_endings());
    answers_at::<I, u8, E, _>(rt, "dec_uint", DecUint, "12;", Ok(12), 2);
    answers_at::<I, u8, E, _>(rt, "dec_uint", DecUint, "256", Err(Backtrack), 0);
}

#[test]
fn dec_uint(rt: HostRuntime) {
    at_streams!(rt; dec_uint_answers, dec_uint_ends);
    at_located!(rt; dec_uint_ends, dec_uint_moves);
    let none = BACKTRACKS;
    let plain = [
        ("", none, none),
        ("0", Takes(1), Takes(1)),
        ("9", Takes(1), none),
        ("12", Takes(2), none),
        ("12;", Takes(2), Takes(2)),
        ("999", none, none),
        (";", none, none),
    ];
    ends_plainly!(rt; "dec_uint", u8, DecUint, &plain);
    like_ends_at_digits!(rt; "dec_uint", u8, DecUint);
    let cut = [
        ("0", Ok(0), ""),
        ("12", Err(Incomplete(Needed::new(1))), "2"),
        ("12;", Ok(12), ";"),
    ];
    answers_on_cut!(rt; "dec_uint::<u8>, cut", u8, DecUint, cut);
}

fn dec_int_answers<I: OfText + SlicesAsBytes, E: ParserError<I>>(rt: &impl Abort)
where
    I::Token: AsChar,
    I::Slice: AsBStr,
{
    let rows = [
        ("+127", Ok(127), ""),
        ("-128", Ok(-128), ""),
        ("128", Err(Backtrack), "128"),
        ("-129", Err(Backtrack), "-129"),
        ("-0", Err(Backtrack), "-0"),
        ("0-", Ok(0), "-"),
        ("-7é", Ok(-7), "é"),
        ("+-1", Err(Backtrack), "+-1"),
        ("-", Err(Backtrack), "-"),
        ("", Err(Backtrack), ""),
    ];
    answers_each::<I, i8, E, _>(rt, "dec_int::<i8>", DecInt, &rows);
    answers::<I, i32, E, _>(rt, "dec_int::<i32>", DecInt, "-0", Err(Backtrack), "-0");
    let among_sixteen_bytes = [
        ("-128; and so forth", Ok(-128), "; and so forth"),
        ("+127; and so forth", Ok(127), "; and so forth"),
        ("0127; and so forth", Ok(0), "127; and so forth"),
        ("128; and so forth", Err(Backtrack), "128; and so forth"),
        ("-0; and so forth...", Err(Backtrack), "-0; and so forth..."),
        ("+0; and so forth...", Err(Backtrack), "+0; and so forth..."),
        ("-; and so forth...", Err(Backtrack), "-; and so forth..."),
    ];
    answers_each::<I, i8, E, _>(rt, "dec_int::<i8>", DecInt, &among_sixteen_bytes);
    let least = "-9223372036854775808";
    answers::<I, i64, E, _>(rt, "dec_int::<i64>", DecInt, least, Ok(i64::MIN), "");
    let below = "-9223372036854775809";
    answers::<I, i64, E, _>(rt, "dec_int::<i64>", DecInt, below, Err(Backtrack), below);
    answers::<I, i128, E, _>(
        rt,
        "dec_int::<i128>",
        DecInt,
        "-18446744073709551616",
        Ok(-18_446_744_073_709_551_616),
        "",
    );
}

/// How `dec_int` of a signed byte ends.
fn dec_int_endings() -> [Row; 14] {
    [
        ("", BACKTRACKS, lacks(1)),
        ("-", BACKTRACKS, lacks_one_behind(1)),
        ("+", BACKTRACKS, lacks_one_behind(1)),
        ("-1", Takes(2), lacks_one_behind(2)),
        ("+12", Takes(3), lacks_one_behind(2)),
        ("12", Takes(2), lacks_one_behind(1)),
        ("-12;", Takes(3), Takes(3)),
        ("+12;", Takes(3), Takes(3)),
        ("0", Takes(1), Takes(1)),
        ("-0", BACKTRACKS, BACKTRACKS),
        ("+0", BACKTRACKS, BACKTRACKS),
        ("-129", BACKTRACKS, lacks_one_behind(2)),
        ("128;", BACKTRACKS, BACKTRACKS),
        ("-;", BACKTRACKS, BACKTRACKS),
    ]
}

fn dec_int_ends<I: OfText + SlicesAsBytes, E: ParserError<I>>(rt: &impl Abort)
where
    I::Token: AsChar,
    I::Slice: AsBStr,
{
    ends_each::<I, i8, E, _>(rt, "dec_int", DecInt, &dec_int_endings());
    let (one, two) = (lacks_one_behind(1), lacks_one_behind(2));
    let as_whole = [BACKTRACKS, BACKTRACKS, Takes(2), Takes(3), Takes(3)];
    let as_cut = [lacks(1), one, two, two, Takes(3)];
    sweep::<I, i8, E, _>(rt, "dec_int", DecInt, "-12;", &as_whole, &as_cut);
}

fn dec_int_moves<I: OfText + Location + SlicesAsBytes, E: ParserError<I>>(rt: &impl Abort)
where
    I::Token: AsChar,
    I::Slice: AsBStr,
{
    moves_each::<I, i8, E, _>(rt, "dec_int", DecInt, &dec_int_endings());
    let back = backtracks_behind(1);
    let behind_one = [
        (";-12.", Takes(4), Takes(4)),
        (";-0", back, back),
        (";-1", Takes(3), lacks_one_behind(3)),
        (";128", back, lacks_one_behind(2)),
        (";", back, lacks_one_behind(1)),
    ];
    let both = (Any, DecInt);
    moves_each::<I, (I::Token, i8), E, _>(rt, "dec_int behind one", both, &behind_one);
    answers_at::<I, i8, E, _>(rt, "dec_int", DecInt, "-7é", Ok(-7), 2);
    answers_at::<I, i8, E, _>(rt, "dec_int", DecInt, "-0", Err(Backtrack), 0);
}

#[test]
fn dec_int(rt: HostRuntime) {
    at_streams!(rt; dec_int_answers, dec_int_ends);
    at_located!(rt; dec_int_ends, dec_int_moves);
    let none = BACKTRACKS;
    let plain = [
        ("", none, none),
        ("-", none, none),
        ("+", none, none),
        ("-1", Takes(2), none),
        ("-12", Takes(3), none),
        ("+12", Takes(3), none),
        ("-1;", Takes(2), Takes(2)),
        ("0", Takes(1), Takes(1)),
        ("-0", none, none),
    ];
    ends_plainly!(rt; "dec_int", i8, DecInt, &plain);
    like_ends_at_digits!(rt; "dec_int", i8, DecInt);
    let cut = [
        ("-", Err(Incomplete(Needed::new(1))), ""),
        ("-128;", Ok(-128), ";"),
    ];
    answers_on_cut!(rt; "dec_int::<i8>, cut", i8, DecInt, cut);
}

fn hex_uint_answers<I: OfText + SlicesAsBytes, E: ParserError<I>>(rt: &impl Abort)
where
    I::Token: AsChar,
    I::Slice: AsBStr,
{
    let rows = [
        ("fA;", Ok(0xFA), ";"),
        ("0", Ok(0), ""),
        ("9g", Ok(9), "g"),
        ("00é", Ok(0), "é"),
        ("fff", Err(Backtrack), "fff"),
        (";", Err(Backtrack), ";"),
        ("", Err(Backtrack), ""),
    ];
    answers_each::<I, u8, E, _>(rt, "hex_uint::<u8>", HexUintParser, &rows);
    let want = Ok(0x0123_4567_89AB_CDEFu64);
    let all = "0123456789aBcDeF";
    answers::<I, u64, E, _>(rt, "hex_uint::<u64>", HexUintParser, all, want, "");
    let (want, most) = (Ok(usize::MAX), "FFFFFFFFFFFFFFFF");
    answers::<I, usize, E, _>(rt, "hex_uint::<usize>", HexUintParser, most, want, "");
}

/// How `hex_uint` of a byte ends.
fn hex_uint_endings() -> [Row; 8] {
    [
        ("", BACKTRACKS, lacks(1)),
        ("f", Takes(1), lacks(1)),
        ("f;", Takes(1), Takes(1)),
        ("ff", Takes(2), lacks(1)),
        ("ff;", Takes(2), Takes(2)),
        ("fff", BACKTRACKS, BACKTRACKS),
        ("0A", Takes(2), lacks(1)),
        (";", BACKTRACKS, BACKTRACKS),
    ]
}

fn hex_uint_ends<I: OfText + SlicesAsBytes, E: ParserError<I>>(rt: &impl Abort)
where
    I::Token: AsChar,
    I::Slice: AsBStr,
{
    ends_each::<I, u8, E, _>(rt, "hex_uint", HexUintParser, &hex_uint_endings());
    let as_whole = [BACKTRACKS, Takes(1), Takes(2), Takes(2)];
    let as_cut = [lacks(1), lacks(1), lacks(1), Takes(2)];
    sweep::<I, u8, E, _>(rt, "hex_uint", HexUintParser, "1f;", &as_whole, &as_cut);
}

fn hex_uint_moves<I: OfText + Location + SlicesAsBytes, E: ParserError<I>>(rt: &impl Abort)
where
    I::Token: AsChar,
    I::Slice: AsBStr,
{
    moves_each::<I, u8, E, _>(rt, "hex_uint", HexUintParser, &hex_uint_endings());
    answers_at::<I, u8, E, _>(rt, "hex_uint", HexUintParser, "fA;", Ok(0xFA), 2);
    answers_at::<I, u8, E, _>(rt, "hex_uint", HexUintParser, "fff", Err(Backtrack), 0);
}

#[test]
fn hex_uint(rt: HostRuntime) {
    at_streams!(rt; hex_uint_answers, hex_uint_ends);
    at_located!(rt; hex_uint_ends, hex_uint_moves);
    let none = BACKTRACKS;
    let plain = [
        ("", none, none),
        ("f", Takes(1), none),
        ("f;", Takes(1), Takes(1)),
        ("ff", Takes(2), none),
        ("ff;", Takes(2), Takes(2)),
        ("fff", none, none),
        (";", none, none),
    ];
    ends_plainly!(rt; "hex_uint", u8, HexUintParser, &plain);
    like_ends_at_digits!(rt; "hex_uint", u16, HexUintParser);
    let cut = [
        ("", Err(Incomplete(Needed::new(1))), ""),
        ("f", Err(Incomplete(Needed::new(1))), "f"),
        ("f;", Ok(15), ";"),
        (";", Err(Backtrack), ";"),
        ("ff", Err(Incomplete(Needed::new(1))), "ff"),
        ("ff;", Ok(255), ";"),
        ("fff", Err(Backtrack), "fff"),
    ];
    answers_on_cut!(rt; "hex_uint::<u8>, cut", u8, HexUintParser, cut);
}
