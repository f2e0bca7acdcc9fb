//! Lookup by section and key, checked against Python's `configparser` where it has one value, else
//! counted by hand.
use format_ini::dialect::Dialect;
use format_ini::lines::{Entry, Places, Reason};
use format_ini::lookup::find_pair;
use format_ini::places::{Placed, Stop, next_placed};
use std::process::Abort;

const TEXT: &[u8] = b"a = 0\n[s]\na = 1\nb = 2\n  more\n[t]\na: 3\n[s]\nA\na = 4\nc = 5\n";

/// Checks the value that is found, where it begins, and how far the text is read.
fn finds(
    rt: &impl Abort,
    dialect: Dialect,
    section: &[u8],
    key: &[u8],
    value: Option<&str>,
    at: usize,
    end: usize,
) {
    let (found, reading) = find_pair(dialect, TEXT, section, key);
    assert_eq!(rt; reading.offset, end);
    match found {
        Ok(Some(Placed { entry: Entry::Pair { key: name, value: text }, at: places })) => {
            assert!(rt; name.as_bytes() == key && text == value);
            assert_eq!(rt; places.value, at);
        }
        Ok(None) => assert!(rt; value.is_none() && at == 0),
        _ => assert!(rt; false),
    }
}

#[test]
fn first_pairs_of_sections(rt: HostRuntime) {
    let lenient = Dialect::lenient();
    finds(&rt, lenient, b"", b"a", Some("0"), 4, 6);
    finds(&rt, lenient, b"s", b"a", Some("1"), 14, 16);
    finds(&rt, lenient, b"t", b"a", Some("3"), 36, 38);
    finds(&rt, lenient, b"s", b"c", Some("5"), 54, 56);
    finds(&rt, lenient, b"s", b"A", None, 42, 44);
    finds(&rt, lenient, b"", b"c", None, 0, 56);
    finds(&rt, lenient, b"T", b"a", None, 0, 56);
    finds(&rt, lenient, b"s", b"", None, 0, 56);
}

#[test]
fn lines_of_a_value_follow(rt: HostRuntime) {
    let text = b"[s]\nb = 2\n  more\n[t]\n".as_slice();
    let python = Dialect::python();
    let (found, mut reading) = find_pair(python, text, b"s", b"b");
    assert!(rt; found.is_ok());
    let more = Placed { entry: Entry::More("more"), at: Places { head: 12, value: 12 } };
    match next_placed(python, text, &mut reading) {
        Ok(Some(placed)) => assert!(rt; placed == more),
        _ => assert!(rt; false),
    }
}

#[test]
fn invalid_lines_before_the_pair(rt: HostRuntime) {
    let python = Dialect::python();
    let (found, reading) = find_pair(python, TEXT, b"s", b"a");
    assert!(rt; found == Err(Stop::Invalid(Reason::NoSection)) && reading.offset == 0);
    let text = b"[s]\na = 1\n\xff\nb = 2\n".as_slice();
    assert!(rt; find_pair(python, text, b"s", b"a").0.is_ok());
    let (found, reading) = find_pair(python, text, b"s", b"b");
    assert!(rt; found == Err(Stop::NoText) && reading.offset == 10);
}
