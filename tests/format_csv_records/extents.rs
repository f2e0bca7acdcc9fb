//! Where records end, at every cut and in many pieces, and how much room they want.
use std::process::Abort;
use crate::records::{REFUSED, STANDARD, dialect};
use format_csv_records::buffers::{RecordSize, record_size, write_fields};
use format_csv_records::dialect::{Dialect, LineEnds};
use format_csv_records::extent::{RecordExtent, RecordPlace};
use format_csv_records::read::InvalidRecord;

/// The result of a call: the numbers of fields, of bytes of fields and of bytes, and whether the
/// line ending is present; or nothing.
type Told = Result<Option<(usize, usize, usize, bool)>, InvalidRecord>;

fn told(answer: Result<Option<RecordSize>, InvalidRecord>) -> Told {
    match answer {
        Ok(Some(size)) => Ok(Some((size.fields, size.text, size.length, size.ended))),
        Ok(None) => Ok(None),
        Err(fault) => Err(fault),
    }
}

/// A line ending, bytes, and the size of the record that they start with regardless of what
/// follows.
const WHOLE: &[(LineEnds, &[u8], (usize, usize, usize))] = &[
    (LineEnds::Lf, b"\n", (1, 0, 1)),
    (LineEnds::Lf, b",\n,", (2, 0, 2)),
    (LineEnds::CrLf, b"a,b\r\nc\r\n", (2, 2, 5)),
    (LineEnds::CrLf, b"\r\n\r\n", (1, 0, 2)),
    (LineEnds::Either, b"ab,\"\",cd\ne", (3, 4, 9)),
    (LineEnds::Either, b"\"a\"\"b\"\r\n", (1, 3, 8)),
    (LineEnds::Lf, b"\"\n\",\"\"\"\"\nc", (2, 2, 9)),
    (LineEnds::Lf, b"\"a,\"\"\r\n\"\"\",bcd,,\"e\"\n", (4, 10, 20)),
];

#[test]
fn advance_at_every_cut(rt: HostRuntime) {
    for (ends, bytes, (fields, text, length)) in WHOLE {
        let lines = dialect(b',', *ends, &rt);
        let mut extent = RecordExtent::new();
        for cut in 0..bytes.len() + 1 {
            let whole = cut >= *length;
            let want = Ok(if whole { Some((*fields, *text, *length, true)) } else { None });
            assert!(rt; told(extent.advance(lines, &bytes[..cut])) == want, "{bytes:?} {cut}");
            assert_eq!(rt; extent.passed, if whole { *length } else { cut });
            assert_eq!(rt; extent.place == RecordPlace::Done, whole);
            let once = RecordExtent::new().advance(lines, &bytes[..cut]);
            assert!(rt; told(once) == want, "{bytes:?} {cut}");
        }
    }
}

#[test]
fn advance_refuses_the_first_byte(rt: HostRuntime) {
    for (ends, bytes, offset, why) in REFUSED {
        let lines = dialect(b',', *ends, &rt);
        let mut extent = RecordExtent::new();
        for cut in 0..*offset + 1 {
            let answer = extent.advance(lines, &bytes[..cut]);
            assert!(rt; told(answer) == Ok(None), "{bytes:?} {cut}");
        }
        let never = Err(InvalidRecord { offset: *offset, why: *why });
        if *offset < bytes.len() {
            assert!(rt; told(extent.advance(lines, &bytes[..*offset + 1])) == never);
            assert!(rt; told(extent.advance(lines, bytes)) == never);
        }
        assert!(rt; told(extent.finish(lines, bytes)) == never, "{bytes:?}");
    }
}

/// The documents of the standard, each record found in two pieces and written.
#[test]
fn the_examples_of_the_standard_by_extents(rt: HostRuntime) {
    let alloc = rt.alloc();
    for (bytes, wanted) in STANDARD {
        for first in 0..bytes.len() {
            let mut rest = *bytes;
            let mut shown = Vec::new(alloc);
            let mut extent = RecordExtent::new();
            let _told = extent.advance(Dialect::standard(), &rest[..first]);
            for _ in 0..9 {
                let (mut text, mut places) = ([b'.'; 40], [(0, 0); 4]);
                if let Ok(Some(size)) = extent.finish(Dialect::standard(), rest) {
                    let (all, fields) = (text.as_mut_slice(), places.as_mut_slice());
                    let same = record_size(Dialect::standard(), rest);
                    assert!(rt; told(same) == told(Ok(Some(size))));
                    if let Ok(Some(known)) = record_size(Dialect::standard(), rest) {
                        assert!(rt; write_fields(Dialect::standard(), rest, known, all, fields));
                    }
                    for number in 0..size.fields {
                        if number > 0 {
                            assert!(rt; shown.push(b'|').is_ok());
                        }
                        let (offset, length) = places[number];
                        let field = &text[offset..offset + length];
                        assert!(rt; shown.extend_from_slice(field).is_ok());
                    }
                    assert!(rt; shown.push(b'/').is_ok());
                    rest = &rest[size.length..];
                    extent = RecordExtent::new();
                }
            }
            assert_eq!(rt; shown.as_slice(), *wanted);
        }
    }
}

#[test]
fn advance_of_fewer_bytes(rt: HostRuntime) {
    let mut extent = RecordExtent::new();
    assert!(rt; told(extent.advance(Dialect::standard(), b"a,\"bc")) == Ok(None));
    let before = extent;
    assert!(rt; told(extent.advance(Dialect::standard(), b"a,")) == Ok(None));
    assert!(rt; extent == before);
    let mut none = RecordExtent { passed: 1, text: 2, fields: 0, place: RecordPlace::Plain };
    assert!(rt; told(none.advance(Dialect::standard(), b"a\r\n")) == Ok(None));
}

/// The next number of a sequence that looks random.
fn next(state: u32) -> u32 {
    state.wrapping_mul(1_664_525).wrapping_add(1_013_904_223)
}

/// Whether the extent of the bytes, taken in two pieces, is that of all of them at once.
fn agree(rt: &impl Abort, lines: Dialect, bytes: &[u8], cut: usize) {
    let mut extent = RecordExtent::new();
    let first = told(extent.advance(lines, &bytes[..cut]));
    let all = told(record_size(lines, bytes));
    let more = told(extent.advance(lines, bytes));
    match all {
        Ok(Some((_, _, _, false))) | Ok(None) => assert!(rt; more == Ok(None), "{bytes:?}"),
        Err(fault) if fault.offset == bytes.len() => assert!(rt; more == Ok(None), "{bytes:?}"),
        _ => assert!(rt; more == all, "{bytes:?}"),
    }
    assert!(rt; first == Ok(None) || first == more, "{bytes:?}");
    assert!(rt; told(extent.finish(lines, bytes)) == all, "{bytes:?}");
}

#[test]
fn advance_of_bytes_at_random(rt: HostRuntime) {
    let signs = b"\"\",,\r\nab".as_slice();
    let mut state = 7u32;
    for ends in [LineEnds::CrLf, LineEnds::Lf, LineEnds::Either] {
        for _ in 0..3000u32 {
            let mut bytes = [0; 9];
            state = next(state);
            let count = (state >> 8) as usize % 10;
            for place in 0..count {
                state = next(state);
                bytes[place] = signs[(state >> 8) as usize % signs.len()];
            }
            state = next(state);
            let cut = (state >> 8) as usize % (count + 1);
            agree(&rt, dialect(b',', ends, &rt), &bytes[..count], cut);
        }
    }
}

/// In pieces of seven bytes: were each byte looked at again in each, this would take minutes.
#[test]
fn advance_of_many_pieces(rt: HostRuntime) {
    let mut text = Vec::new(rt.alloc());
    for _ in 0..60000u32 {
        assert!(rt; text.extend_from_slice(b"a field of it,\"\"\"\",".as_slice()).is_ok());
    }
    assert!(rt; text.extend_from_slice(b"\r\n".as_slice()).is_ok());
    let mut extent = RecordExtent::new();
    let mut there = 0;
    while there + 7 < text.len() {
        there += 7;
        assert!(rt; told(extent.advance(Dialect::standard(), &text[..there])) == Ok(None));
    }
    let whole = Ok(Some((120001, 840000, 1140002, true)));
    assert!(rt; told(extent.advance(Dialect::standard(), text.as_slice())) == whole);
    assert!(rt; told(extent.advance(Dialect::standard(), text.as_slice())) == whole);
}
