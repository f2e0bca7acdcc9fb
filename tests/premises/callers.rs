//! Every caller with its successes and errors, and the rest.
use std::fmt::Debug;
use std::process::Abort;
use example_callers::premises::closures::{digit_of_bytes, mapped_byte, verified_byte};
use example_callers::premises::errors::{converted_over_bytes, kept_over_bytes, mode_over_bytes};
use example_callers::premises::lengths::{bytes_behind_length, letters_behind_length};
use example_callers::premises::outputs::{byte_twice, letters_of_two, number_of_three};
use example_callers::premises::repeats::{bytes_up_to_mark, greatest_byte};

/// Checks the result of a reader, and the rest.
fn same<T: PartialEq + Debug + Drop, I: PartialEq + Debug + Copy>(
    rt: &impl Abort,
    got: Option<T>,
    left: I,
    want: Option<T>,
    rest: I,
) {
    assert_eq!(rt; got, want);
    assert_eq!(rt; left, rest);
}

#[test]
fn closures(rt: HostRuntime) {
    for (text, number, rest) in [
        (b"a1".as_slice(), Some(97), b"1".as_slice()),
        (b"\xFF", Some(255), b""),
        (b"", None, b""),
    ] {
        let mut input = text;
        same(&rt, mapped_byte(&mut input).ok(), input, number, rest);
    }
    for (text, byte, rest) in [
        (b"!a".as_slice(), Some(b'!'), b"a".as_slice()),
        (b" a", None, b" a"),
        (b"\n", None, b"\n"),
        (b"", None, b""),
    ] {
        let mut input = text;
        same(&rt, verified_byte(&mut input).ok(), input, byte, rest);
    }
    for (text, digit, rest) in [
        (b"0".as_slice(), Some(0), b"".as_slice()),
        (b"9a", Some(9), b"a"),
        (b"/", None, b"/"),
        (b":", None, b":"),
        (b"", None, b""),
    ] {
        let mut input = text;
        same(&rt, digit_of_bytes(&mut input).ok(), input, digit, rest);
    }
}

#[test]
fn errors(rt: HostRuntime) {
    for (text, byte, rest) in [
        (b"ab".as_slice(), Some(b'a'), b"b".as_slice()),
        (b"", None, b""),
    ] {
        let mut input = text;
        same(&rt, mode_over_bytes(&mut input).ok(), input, byte, rest);
        let mut input = text;
        same(&rt, kept_over_bytes(&mut input).ok(), input, byte, rest);
        let mut input = text;
        same(&rt, converted_over_bytes(&mut input).ok(), input, byte, rest);
    }
}

#[test]
fn lengths(rt: HostRuntime) {
    for (text, letters, rest) in [
        (b"\x02a1b".as_slice(), Some(b"a".as_slice()), b"b".as_slice()),
        (b"\x03abcd", Some(b"abc"), b"d"),
        (b"\x001", None, b"\x001"),
        (b"\x021a", None, b"\x021a"),
        (b"\x03ab", None, b"\x03ab"),
        (b"", None, b""),
    ] {
        let mut input = text;
        let got = letters_behind_length(&mut input).ok();
        assert_eq!(rt; got, letters, "{text:?}");
        if got.is_some() {
            assert_eq!(rt; input, rest, "{text:?}");
        }
    }
    for (text, bytes) in [
        (b"\x02abc".as_slice(), Some(b"ab".as_slice())),
        (b"\x00a", Some(b"")),
        (b"\x03ab", None),
        (b"", None),
    ] {
        let got = bytes_behind_length(rt.alloc(), &mut &*text);
        match (&got, bytes) {
            (Ok(list), Some(bytes)) => assert_eq!(rt; list.as_slice(), bytes, "{text:?}"),
            (Err(_), None) => {}
            _ => assert!(rt; false, "{text:?}"),
        }
    }
}

#[test]
fn outputs(rt: HostRuntime) {
    for (text, number) in [
        ("0423", Some(42)),
        ("999", Some(999)),
        ("+42", Some(42)),
        ("4a2", None),
        ("-42", None),
        ("42", None),
        ("", None),
    ] {
        assert_eq!(rt; number_of_three(&mut text.as_bytes()).ok(), number, "{text}");
    }
    for (text, letters) in [("a1bc", Some("a")), ("abc", Some("ab")), ("1a", None), ("a", None)] {
        let bytes = letters_of_two(&mut text.as_bytes()).ok();
        assert_eq!(rt; bytes, letters.map(|it: &str| it.as_bytes()), "{text}");
    }
    for (text, byte) in [("aab", Some(b'a')), ("ab", None), ("a", None), ("", None)] {
        assert_eq!(rt; byte_twice(&mut text.as_bytes()).ok(), byte, "{text}");
    }
}

#[test]
fn repeats(rt: HostRuntime) {
    let alloc = rt.alloc();
    for (text, byte) in [("acb", b'c'), ("", 0), ("aéb", 0xC3)] {
        assert_eq!(rt; greatest_byte(alloc, &mut text.as_bytes()), Ok(byte), "{text}");
    }
    let mut input = b"ab;c;".as_slice();
    match bytes_up_to_mark(alloc, &mut input) {
        Ok((list, mark)) => assert!(rt; list.as_slice() == b"ab".as_slice() && mark == b';'),
        Err(_) => assert!(rt; false),
    }
    assert_eq!(rt; input, b"c;".as_slice());
    assert!(rt; bytes_up_to_mark(alloc, &mut b"ab".as_slice()).is_err());
}
