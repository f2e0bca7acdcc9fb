//! Places of texts.
use std::fmt::Debug;
use std::process::Abort;
use text_positions::excerpt::position_in;
use text_positions::{Position, one_position, position_of};

/// A text, an offset in bytes, and the line and the column of Python's `json.JSONDecodeError` for
/// the character there.
const PLACES: &[(&str, usize, usize, usize)] = &[
    ("", 0, 1, 1),
    ("a", 0, 1, 1),
    ("a", 1, 1, 2),
    ("\n", 0, 1, 1),
    ("\n", 1, 2, 1),
    ("\n\n", 0, 1, 1),
    ("\n\n", 1, 2, 1),
    ("\n\n", 2, 3, 1),
    ("ab\ncd", 0, 1, 1),
    ("ab\ncd", 1, 1, 2),
    ("ab\ncd", 2, 1, 3),
    ("ab\ncd", 3, 2, 1),
    ("ab\ncd", 4, 2, 2),
    ("ab\ncd", 5, 2, 3),
    ("größe=1\nhöhe?2\n", 0, 1, 1),
    ("größe=1\nhöhe?2\n", 1, 1, 2),
    ("größe=1\nhöhe?2\n", 2, 1, 3),
    ("größe=1\nhöhe?2\n", 4, 1, 4),
    ("größe=1\nhöhe?2\n", 6, 1, 5),
    ("größe=1\nhöhe?2\n", 7, 1, 6),
    ("größe=1\nhöhe?2\n", 8, 1, 7),
    ("größe=1\nhöhe?2\n", 9, 1, 8),
    ("größe=1\nhöhe?2\n", 10, 2, 1),
    ("größe=1\nhöhe?2\n", 11, 2, 2),
    ("größe=1\nhöhe?2\n", 13, 2, 3),
    ("größe=1\nhöhe?2\n", 14, 2, 4),
    ("größe=1\nhöhe?2\n", 15, 2, 5),
    ("größe=1\nhöhe?2\n", 16, 2, 6),
    ("größe=1\nhöhe?2\n", 17, 2, 7),
    ("größe=1\nhöhe?2\n", 18, 3, 1),
    ("é\n€\n𝄞x\n", 0, 1, 1),
    ("é\n€\n𝄞x\n", 2, 1, 2),
    ("é\n€\n𝄞x\n", 3, 2, 1),
    ("é\n€\n𝄞x\n", 6, 2, 2),
    ("é\n€\n𝄞x\n", 7, 3, 1),
    ("é\n€\n𝄞x\n", 11, 3, 2),
    ("é\n€\n𝄞x\n", 12, 3, 3),
    ("é\n€\n𝄞x\n", 13, 4, 1),
    ("a\r\nb\r\n", 0, 1, 1),
    ("a\r\nb\r\n", 1, 1, 2),
    ("a\r\nb\r\n", 2, 1, 3),
    ("a\r\nb\r\n", 3, 2, 1),
    ("a\r\nb\r\n", 4, 2, 2),
    ("a\r\nb\r\n", 5, 2, 3),
    ("a\r\nb\r\n", 6, 3, 1),
    ("\r\n\r", 0, 1, 1),
    ("\r\n\r", 1, 1, 2),
    ("\r\n\r", 2, 2, 1),
    ("\r\n\r", 3, 2, 2),
    ("日本\n語", 0, 1, 1),
    ("日本\n語", 3, 1, 2),
    ("日本\n語", 6, 1, 3),
    ("日本\n語", 7, 2, 1),
    ("日本\n語", 10, 2, 2),
];

/// A text, and an offset within a character, so that Python's `bytes.decode` fails on the bytes
/// before it, or an offset past the end.
const NO_PLACES: &[(&str, usize)] = &[
    ("", 1),
    ("", 2),
    ("a", 2),
    ("a", 3),
    ("\n", 2),
    ("\n", 3),
    ("\n\n", 3),
    ("\n\n", 4),
    ("ab\ncd", 6),
    ("ab\ncd", 7),
    ("größe=1\nhöhe?2\n", 3),
    ("größe=1\nhöhe?2\n", 5),
    ("größe=1\nhöhe?2\n", 12),
    ("größe=1\nhöhe?2\n", 19),
    ("größe=1\nhöhe?2\n", 20),
    ("é\n€\n𝄞x\n", 1),
    ("é\n€\n𝄞x\n", 4),
    ("é\n€\n𝄞x\n", 5),
    ("é\n€\n𝄞x\n", 8),
    ("é\n€\n𝄞x\n", 9),
    ("é\n€\n𝄞x\n", 10),
    ("é\n€\n𝄞x\n", 14),
    ("é\n€\n𝄞x\n", 15),
    ("a\r\nb\r\n", 7),
    ("a\r\nb\r\n", 8),
    ("\r\n\r", 4),
    ("\r\n\r", 5),
    ("日本\n語", 1),
    ("日本\n語", 2),
    ("日本\n語", 4),
    ("日本\n語", 5),
    ("日本\n語", 8),
    ("日本\n語", 9),
    ("日本\n語", 11),
    ("日本\n語", 12),
];

/// Bytes, an offset, and the line and the column that Python counts in the bytes before it, decoded
/// with a replacement character for each invalid sequence (`errors="replace"`).
const INVALID: &[(&[u8], usize, usize, usize)] = &[
    (b"\xFF", 0, 1, 1),
    (b"\xFF", 1, 1, 2),
    (b"\xFF", 9, 1, 2),
    (b"\xFF\xFF", 2, 1, 3),
    (b"a\n\xFF", 0, 1, 1),
    (b"a\n\xFF", 1, 1, 2),
    (b"a\n\xFF", 2, 2, 1),
    (b"a\n\xFF", 3, 2, 2),
    (b"a\n\xFF", 7, 2, 2),
    (b"\n\n\xFF", 1, 2, 1),
    (b"\n\n\xFF", 2, 3, 1),
    (b"\n\n\xFF", 3, 3, 2),
    (b"\xFF\n", 2, 2, 1),
    (b"\xFF\n\n", 3, 3, 1),
    (b"\xFF\nab\n\nc", 4, 2, 3),
    (b"\xFF\nab\n\nc", 5, 3, 1),
    (b"\xFF\nab\n\nc", 6, 4, 1),
    (b"\xFF\nab\n\nc", 7, 4, 2),
    (b"\xFF\r\nb", 2, 1, 3),
    (b"\xFF\r\nb", 3, 2, 1),
    (b"\xC3\xA9\xFF", 2, 1, 2),
    (b"\xC3\xA9\xFF", 3, 1, 3),
    (b"\xFF\xC3\xA9\xE2\x82\xAC\xF0\x9D\x84\x9Ex", 11, 1, 6),
    // A character that is cut counts as one, also where its bytes are valid.
    (b"\xC3\xA9", 1, 1, 2),
    (b"a\n\xC3\xA9", 3, 2, 2),
    (b"\xF0\x9D\x84\x9E", 3, 1, 2),
    (b"\xE2\x82x", 3, 1, 3),
    // An overlong encoding, and a surrogate: each byte counts.
    (b"\xC0\x80", 2, 1, 3),
    (b"\xED\xA0\x80", 3, 1, 4),
];

fn same<T: PartialEq + Debug + Drop>(rt: &impl Abort, text: &str, at: usize, got: T, want: T) {
    assert_eq!(rt; got, want, "{text:?} at {at}");
}

#[test]
fn position_of_places(rt: HostRuntime) {
    for (text, at, line, column) in PLACES {
        let want = Some(Position { line: *line, column: *column });
        same(&rt, text, *at, position_of(text, *at), want);
    }
}

#[test]
fn position_of_no_places(rt: HostRuntime) {
    for (text, at) in NO_PLACES {
        same(&rt, text, *at, position_of(text, *at), None);
    }
    same(&rt, "a", usize::MAX, position_of("a", usize::MAX), None);
}

/// Bytes that are not UTF-8 after the offset do not change its line and its column.
#[test]
fn position_in_before_invalid_bytes(rt: HostRuntime) {
    for (text, at, line, column) in PLACES {
        let mut bytes = Vec::new(rt.alloc());
        for byte in text.as_bytes() {
            assert!(rt; bytes.push(*byte).is_ok(), "memory is there");
        }
        assert!(rt; bytes.push(0xFF).is_ok(), "memory is there");
        let want = Position { line: *line, column: *column };
        same(&rt, text, *at, position_in(bytes.as_slice(), *at), want);
    }
}

#[test]
fn position_in_invalid_bytes(rt: HostRuntime) {
    for (bytes, at, line, column) in INVALID {
        let want = Position { line: *line, column: *column };
        assert_eq!(rt; position_in(*bytes, *at), want, "{bytes:?} at {at}");
    }
}

#[test]
fn one_position_is_a_law(_rt: HostRuntime) {
    one_position();
}
