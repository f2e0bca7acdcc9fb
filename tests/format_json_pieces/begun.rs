//! `Incomplete` is returned only if some longer input starts with a value: every text over a small
//! alphabet for which it is returned has a continuation with which it is parsed.
use format_json_pieces::value::read_value_in_pieces;
use std::alloc::Global;
use std::process::Abort;
use winnow::error::ErrMode;
use winnow::stream::Partial;

/// The bytes of which texts are made.
const ALPHABET: &[u8] = b"[]{},:\"\\ud01-.et \xc3\xa9";

/// How many bytes a text has at most.
const LONGEST: u32 = 4;

/// The ends of an item that is incomplete: a string, a word, a number, or nothing.
const ENDS: &[&[u8]] = &[
    b"", b"0", b"\"", b"\"\"", b"n\"", b"rue", b"ue", b"e", b"0000\"", b"000\"", b"00\"", b"0\"",
    b"\\udc00\"", b"udc00\"", b"dc00\"", b"c00\"", b"\xa9\"", b"000\\udc00\"", b"800\"",
    b"00\\udc00\"", b"0\\udc00\"",
];

/// The continuation if the item is a name, or if it is not.
const VALUES: &[&[u8]] = &[b"", b":0"];

/// The closing brackets.
const CLOSES: &[&[u8]] = &[b"", b"]", b"}", b"]]", b"]}", b"}]", b"}}"];

/// Returns whether a read of partial input needs more. If not, it must have read a value.
fn asks(alloc: Global, level: usize, bytes: &[u8]) -> Result<bool, ()> {
    match read_value_in_pieces(alloc, level, &mut Partial::new(bytes)) {
        Ok(_) => Ok(false),
        Err(ErrMode::Incomplete(_)) => Ok(true),
        Err(_) => Err(()),
    }
}

/// Whether some end makes a value of the bytes. A comma ends a number that is in no brackets.
fn ends(rt: &impl Abort, alloc: Global, level: usize, bytes: &[u8]) -> bool {
    for end in ENDS {
        for value in VALUES {
            for close in CLOSES {
                let mut text = Vec::new(alloc);
                assert!(rt; text.extend_from_slice(bytes).is_ok());
                assert!(rt; text.extend_from_slice(end).is_ok());
                assert!(rt; text.extend_from_slice(value).is_ok());
                assert!(rt; text.extend_from_slice(close).is_ok());
                assert!(rt; text.push(b',').is_ok());
                if asks(alloc, level, &text) == Ok(false) {
                    return true;
                }
            }
        }
    }
    false
}

/// Checks that every text that starts with these bytes, and for which `Incomplete` is returned, can
/// be completed.
fn each_text(rt: &impl Abort, alloc: Global, level: usize, bytes: &[u8], more: u32) {
    if asks(alloc, level, bytes) != Ok(true) {
        return;
    }
    assert!(rt; ends(rt, alloc, level, bytes), "{level} {bytes:?}");
    if more == 0 {
        return;
    }
    for byte in ALPHABET {
        let mut text = Vec::new(alloc);
        assert!(rt; text.extend_from_slice(bytes).is_ok());
        assert!(rt; text.push(*byte).is_ok());
        each_text(rt, alloc, level, &text, more - 1);
    }
}

#[test]
fn read_value_asks_not_in_vain_of_scalars(rt: HostRuntime) {
    each_text(&rt, rt.alloc(), 0, b"".as_slice(), LONGEST);
}

/// Checks the texts that start with a bracket.
fn each_nested(rt: &impl Abort, alloc: Global, level: usize) {
    for open in [b"[".as_slice(), b"{".as_slice()] {
        each_text(rt, alloc, level, open, LONGEST - 1);
    }
}

#[test]
fn read_value_asks_not_in_vain_of_one_level(rt: HostRuntime) {
    each_nested(&rt, rt.alloc(), 1);
}

#[test]
fn read_value_asks_not_in_vain_of_two_levels(rt: HostRuntime) {
    each_nested(&rt, rt.alloc(), 2);
}

/// Bytes in a string whose escape or character is cut.
const STRINGS: &[&[u8]] = &[
    b"\"\\ud8", b"\"\\ud83", b"\"\\ud834", b"\"\\ud834\\", b"\"\\ud834\\u", b"\"\\ud834\\ud",
    b"[\"\\ud834\\udd", b"{\"\\u00e", b"\"\xc3", b"\"\\ud7", b"[\"\\ue0",
];

#[test]
fn read_value_asks_not_in_vain_in_strings(rt: HostRuntime) {
    for bytes in STRINGS {
        assert!(rt; asks(rt.alloc(), 1, bytes) == Ok(true), "{bytes:?}");
        assert!(rt; ends(&rt, rt.alloc(), 1, bytes), "{bytes:?}");
    }
}
