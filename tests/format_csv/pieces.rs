//! Records from pieces, at every cut.
use std::alloc::Allocator;
use std::process::Abort;
use format_csv::LineEnd;
use format_csv::pieces::read_record_in_pieces;
use winnow::error::ErrMode;
use winnow::stream::{Partial, StreamIsPartial};

/// Texts that start with a record and its CRLF, and the length of both in bytes. The rest does not
/// matter.
const LINES: &[(&[u8], usize)] = &[
    (b"a,b\r\nc,d", 5),
    (b"\r\n", 2),
    (b"\"x\r\ny\",\"\"\"\"\r\n\"", 13),
    (b",\r\n\r\n", 3),
    (b"\"\"\r\n\r\n", 4),
];

/// The same if only line feeds end lines.
const BY_LINE_FEEDS: &[(&[u8], usize)] = &[
    (b"a,b\nc,d", 4),
    (b"\n\n", 1),
    (b"\"x\ny\r\n\",\"\"\"\"\n\"", 13),
    (b"\"\"\n\r\n", 3),
];

/// Texts that do not start with a record, and the length of their longest prefix that a record can
/// start with: the standard's grammar allows no continuation with the next byte.
const NONE: &[(&[u8], usize)] = &[
    (b"x\"y,z", 1),
    (b"\"x\"y,z", 3),
    (b"a,\"\" ,", 4),
    (b"a\nb\r\n", 1),
    (b"a,b\rc\r\n", 4),
    (b"\"\r\n\"\"\"\r\r", 7),
    (b"\n", 0),
];

/// The same if only line feeds end lines.
const NONE_BY_LINE_FEEDS: &[(&[u8], usize)] = &[
    (b"x\"\n", 1),
    (b"\"x\"\"\"y\n", 5),
    (b"a\r\n", 1),
    (b"\"a\"\r\n", 3),
    (b"\r", 0),
];

/// The result for a prefix.
#[derive(Clone, Copy, Debug, PartialEq, Eq)]
enum Answered {
    /// A record of this length in bytes, line ending included.
    Taken(usize),
    /// The result is `Incomplete`.
    Asks,
    /// No longer input begins with a record.
    Never,
}

fn answered<A: Allocator + Copy>(
    rt: &impl Abort,
    alloc: A,
    end: LineEnd,
    piece: &[u8],
) -> Answered {
    let mut input = Partial::new(piece);
    let answer = read_record_in_pieces(alloc, end, &mut input);
    assert!(rt; input.is_partial());
    let answered = match answer {
        Ok(_) => Answered::Taken(piece.len() - input.as_inner().len()),
        Err(ErrMode::Incomplete(_)) => Answered::Asks,
        Err(ErrMode::Backtrack(_)) => Answered::Never,
        Err(ErrMode::Cut(_)) => {
            assert!(rt; false, "{piece:?}");
            Answered::Never
        }
    };
    if !matches!(answered, Answered::Taken(_)) {
        assert_eq!(rt; *input.as_inner(), piece);
    }
    answered
}

#[test]
fn read_record_at_every_cut(rt: HostRuntime) {
    for (end, rows) in [(LineEnd::CrLf, LINES), (LineEnd::Lf, BY_LINE_FEEDS)] {
        for (text, length) in rows {
            for cut in 0..text.len() + 1 {
                let want = if cut < *length { Answered::Asks } else { Answered::Taken(*length) };
                let got = answered(&rt, rt.alloc(), end, &text[..cut]);
                assert_eq!(rt; got, want, "{text:?} {cut}");
            }
        }
    }
}

#[test]
fn refuse_at_the_first_byte_at_which_no_record_goes_on(rt: HostRuntime) {
    for (end, rows) in [(LineEnd::CrLf, NONE), (LineEnd::Lf, NONE_BY_LINE_FEEDS)] {
        for (text, begins) in rows {
            for cut in 0..text.len() + 1 {
                let want = if cut > *begins { Answered::Never } else { Answered::Asks };
                let got = answered(&rt, rt.alloc(), end, &text[..cut]);
                assert_eq!(rt; got, want, "{text:?} {cut}");
            }
        }
    }
}

#[test]
fn read_record_of_a_complete_input(rt: HostRuntime) {
    let mut input = Partial::new(b"a,\"b\"".as_slice());
    input.complete();
    let answer = read_record_in_pieces(rt.alloc(), LineEnd::CrLf, &mut input);
    assert!(rt; matches!(answer, Ok(fields) if fields.len() == 2));
    assert!(rt; input.as_inner().is_empty());
    assert!(rt; !input.is_partial());
    let none = read_record_in_pieces(rt.alloc(), LineEnd::CrLf, &mut input);
    assert!(rt; matches!(none, Err(ErrMode::Backtrack(_))));
}
