//! Invalid documents: the offset of the first invalid line, and the reason.
use format_ini::dialect::Dialect;
use format_ini::documents::{Entries, InvalidLine, IniError, read_document};
use format_ini::lines::{Entry, Reason};
use text_positions::Position;

/// A text, the number of bytes before the invalid line, and the reason, in the dialect of Python.
/// Python's `configparser` rejects the same lines.
const REFUSED: &[(&str, usize, Reason)] = &[
    ("a = b\n", 0, Reason::NoSection),
    ("\n# c\na\n", 5, Reason::NoSection),
    ("\u{feff}a = b\n", 3, Reason::NoSection),
    ("[s]\na\n", 4, Reason::NoDelimiter),
    ("[s]\na = b\nc\n", 10, Reason::NoDelimiter),
    ("[s]\n= b\n", 4, Reason::NoKey),
    ("[s]\n  : b\n", 4, Reason::NoKey),
    ("[s\na = b\n", 0, Reason::NoSection),
    ("[q=1\n", 0, Reason::NoSection),
    ("[]\n", 0, Reason::NoSection),
    ("[s]\n[]\n", 4, Reason::NoDelimiter),
    ("[s]\n[a\n", 4, Reason::NoDelimiter),
];

/// The same for section headers of a dialect whose sections are not loose.
const STRICT: &[(&str, usize, Reason)] = &[
    ("[s\na = b\n", 0, Reason::OpenSection),
    ("[s]\na = b\n[t = c\n", 10, Reason::OpenSection),
    ("[]\n", 0, Reason::EmptySection),
    ("[s] t\n", 0, Reason::TextBehindSection),
    ("[s]]\n", 0, Reason::TextBehindSection),
];

#[test]
fn lines_that_are_refused(rt: HostRuntime) {
    for (dialect, rows) in [(Dialect::python(), REFUSED), (Dialect::desktop(), STRICT)] {
        for (text, offset, why) in rows {
            match read_document(rt.alloc(), dialect, text) {
                Err(IniError::Invalid(fault)) => {
                    assert_eq!(rt; fault, InvalidLine { offset: *offset, why: *why });
                }
                _ => assert!(rt; false),
            }
        }
    }
}

/// The entries before an invalid line are returned, and the line is rejected again by the next
/// call.
#[test]
fn entries_before_a_refusal(rt: HostRuntime) {
    let mut entries = Entries::new(Dialect::python(), "[s]\na = b\n\n= c\n");
    assert!(rt; entries.next_entry() == Ok(Some(Entry::Section("s"))));
    let pair = Entry::Pair {
        key: "a",
        value: Some("b"),
    };
    assert!(rt; entries.next_entry() == Ok(Some(pair)));
    assert!(rt; entries.next_entry() == Ok(Some(Entry::More(""))));
    assert!(rt; entries.next_entry() == Err(Reason::NoKey));
    assert!(rt; entries.next_entry() == Err(Reason::NoKey));
}

/// Errors as text, with the line and the column of the invalid line.
#[test]
fn faults_are_shown(rt: HostRuntime) {
    let text = "[gr\u{f6}\u{df}e]\n\n= b\n";
    match read_document(rt.alloc(), Dialect::python(), text) {
        Err(IniError::Invalid(fault)) => {
            let position = Position { line: 3, column: 1 };
            assert_eq!(rt; fault.position(text), Some(position));
            match format!(in rt.alloc(); "{fault}") {
                Ok(shown) => {
                    let wanted = "missing key before the delimiter in the line at offset 11";
                    assert_eq!(rt; shown.as_str(), wanted);
                }
                Err(_) => assert!(rt; false),
            }
        }
        _ => assert!(rt; false),
    }
}
