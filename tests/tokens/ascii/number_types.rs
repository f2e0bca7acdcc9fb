//! The types of numbers as text, by the calls of their traits.
use streams::needed::Needed;
use streams::partial::Partial;
use test_support::outcomes::Kind::{Backtrack, Incomplete};
use test_support::rows::{Modal, answers_each, answers_on_cut, same};
use winnow_numbers::ascii::impls::{HexUint, HexUintParser};
use winnow_numbers::ascii::{Int, Uint};

/// Partial text and bytes.
type CutText = Partial<&'static str>;

type CutBytes = Partial<&'static [u8]>;

#[test]
fn numbers_by_their_types(rt: HostRuntime) {
    for (text, want) in [("+255", Some(255)), ("256", None), ("-1", None), ("", None)] {
        same(
            &rt,
            "try_from_dec_uint",
            text,
            u8::try_from_dec_uint(text),
            want,
        );
    }
    for (text, want) in [
        ("-128", Some(-128)),
        ("+0", Some(0)),
        ("128", None),
        ("+", None),
    ] {
        same(
            &rt,
            "try_from_dec_int",
            text,
            i8::try_from_dec_int(text),
            want,
        );
    }
    for (number, want) in [(-128, Some(-128)), (127, Some(127)), (-129, None), (128, None)] {
        assert_eq!(rt; i8::try_from_number(number), want, "try_from_number of {number}");
    }
    assert_eq!(rt; 0xA_u8.push_nibble(0xB), 0xAB, "push_nibble");
    assert_eq!(rt; 0xFFF_u16.push_nibble(0xF), u16::MAX, "push_nibble");
    assert_eq!(rt; 1_u128.push_nibble(2), 18, "push_nibble");
}

/// A type's greatest number of digits, one digit fewer, and one more.
macro_rules! digits_of {
    ($rt:expr; $name:literal, $output:ty, $digits:literal) => {{
        let all = "ffffffffffffffffffffffffffffffff;";
        let more = "fffffffffffffffffffffffffffffffff";
        let (most, fewer) = (&all[32 - $digits..], &all[33 - $digits..]);
        let digits = &all[32 - $digits..32];
        let cut_fewer = &all[33 - $digits..32];
        let too_many = &more[32 - $digits..];
        let largest = <$output>::MAX;
        let rows = [
            (most, Ok(largest), ";"),
            (digits, Ok(largest), ""),
            (fewer, Ok(largest >> 4), ";"),
            (too_many, Err(Backtrack), too_many),
        ];
        answers_each::<&str, $output, Modal, _>(&$rt, $name, HexUintParser, &rows);
        answers_each::<&[u8], $output, Modal, _>(&$rt, $name, HexUintParser, &rows);
        let cut = [
            (most, Ok(largest), ";"),
            (digits, Err(Incomplete(Needed::new(1))), digits),
            (cut_fewer, Err(Incomplete(Needed::new(1))), cut_fewer),
            (too_many, Err(Backtrack), too_many),
        ];
        for row in cut {
            answers_on_cut::<CutText, $output, Modal, _>(&$rt, $name, &mut HexUintParser, row);
            answers_on_cut::<CutBytes, $output, Modal, _>(&$rt, $name, &mut HexUintParser, row);
        }
    }};
}

#[test]
fn hex_uint_of_the_greatest_number_of_digits(rt: HostRuntime) {
    digits_of!(rt; "hex_uint::<u8>", u8, 2);
    digits_of!(rt; "hex_uint::<u16>", u16, 4);
    digits_of!(rt; "hex_uint::<u32>", u32, 8);
    digits_of!(rt; "hex_uint::<u64>", u64, 16);
    digits_of!(rt; "hex_uint::<u128>", u128, 32);
    digits_of!(rt; "hex_uint::<usize>", usize, 16);
}
