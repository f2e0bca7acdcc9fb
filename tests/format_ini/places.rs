//! Entries of bytes with their offsets, call by call. The offsets are counted by hand.
use format_ini::dialect::{Delimiters, Dialect};
use format_ini::lines::{Entry, Places, Reason};
use format_ini::places::{Placed, Reading, Stop, next_placed};
use std::process::Abort;

/// Checks what the next call tells.
fn tells(
    rt: &impl Abort,
    dialect: Dialect,
    bytes: &[u8],
    reading: &mut Reading,
    entry: Entry<'_>,
    head: usize,
    value: usize,
) {
    let at = Places { head, value };
    match next_placed(dialect, bytes, reading) {
        Ok(Some(placed)) => assert!(rt; placed == (Placed { entry, at })),
        _ => assert!(rt; false),
    }
}

/// Checks that the next call stops so after these bytes, and another one too.
fn stops(rt: &impl Abort, dialect: Dialect, bytes: &[u8], reading: &mut Reading, stop: Stop) {
    let offset = reading.offset;
    for _ in 0..2 {
        match next_placed(dialect, bytes, reading) {
            Err(why) => assert!(rt; why == stop),
            Ok(_) => assert!(rt; false),
        }
        assert!(rt; offset <= reading.offset);
    }
}

/// Checks that no entry remains.
fn ends(rt: &impl Abort, dialect: Dialect, bytes: &[u8], reading: &mut Reading) {
    match next_placed(dialect, bytes, reading) {
        Ok(None) => {}
        _ => assert!(rt; false),
    }
    assert_eq!(rt; reading.offset, bytes.len());
}

#[test]
fn places_of_entries(rt: HostRuntime) {
    let python = Dialect::python();
    let bytes = b"# a\n [b]\n\tkey = value\r\n\n  \tmore\nb=b".as_slice();
    let mut reading = Reading::begin(bytes);
    tells(&rt, python, bytes, &mut reading, Entry::Section("b"), 6, 6);
    let pair = Entry::Pair { key: "key", value: Some("value") };
    tells(&rt, python, bytes, &mut reading, pair, 10, 16);
    tells(&rt, python, bytes, &mut reading, Entry::More(""), 23, 23);
    tells(&rt, python, bytes, &mut reading, Entry::More("more"), 27, 27);
    let same = Entry::Pair { key: "b", value: Some("b") };
    tells(&rt, python, bytes, &mut reading, same, 32, 34);
    ends(&rt, python, bytes, &mut reading);
    let lenient = Dialect::lenient();
    let bytes = b"\xef\xbb\xbf a ; b\nc=  ;d\n".as_slice();
    let mut reading = Reading::begin(bytes);
    let key = Entry::Pair { key: "a", value: None };
    tells(&rt, lenient, bytes, &mut reading, key, 4, 4);
    let empty = Entry::Pair { key: "c", value: Some("") };
    tells(&rt, lenient, bytes, &mut reading, empty, 10, 12);
    ends(&rt, lenient, bytes, &mut reading);
}

#[test]
fn places_of_stops(rt: HostRuntime) {
    let desktop = Dialect::desktop();
    let bytes = b"[a]\nb\n".as_slice();
    let mut reading = Reading::begin(bytes);
    tells(&rt, desktop, bytes, &mut reading, Entry::Section("a"), 1, 1);
    stops(&rt, desktop, bytes, &mut reading, Stop::Invalid(Reason::NoDelimiter));
    assert_eq!(rt; reading.offset, 4);
    let colon = Dialect {
        delimiters: Delimiters::Colon,
        ..desktop
    };
    let bytes = b"\xef\xbb\xbf[a]\n# c\n\xff: b\n".as_slice();
    let mut reading = Reading::begin(bytes);
    tells(&rt, colon, bytes, &mut reading, Entry::Section("a"), 4, 4);
    stops(&rt, colon, bytes, &mut reading, Stop::NoText);
    assert_eq!(rt; reading.offset, 11);
    let past = Reading {
        offset: 99,
        state: reading.state,
    };
    let mut reading = past;
    match next_placed(desktop, bytes, &mut reading) {
        Ok(None) => {}
        _ => assert!(rt; false),
    }
    assert!(rt; reading == past);
}
