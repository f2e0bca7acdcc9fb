//! Records written into two buffers, and how much room they want.
use crate::records::{REFUSED, STANDARD, dialect};
use format_csv_records::buffers::{record_size, write_fields};
use format_csv_records::dialect::{Dialect, LineEnds};
use format_csv_records::read::InvalidRecord;

/// The offset and the length of a field.
const NOWHERE: (usize, usize) = (0, 0);

#[test]
fn the_examples_of_the_standard_in_buffers(rt: HostRuntime) {
    let alloc = rt.alloc();
    for (bytes, wanted) in STANDARD {
        let mut rest = *bytes;
        let mut shown = Vec::new(alloc);
        for _ in 0..9 {
            let (mut text, mut places) = ([b'.'; 40], [NOWHERE; 4]);
            if let Ok(Some(size)) = record_size(Dialect::standard(), rest) {
                let (all, fields) = (text.as_mut_slice(), places.as_mut_slice());
                assert!(rt; write_fields(Dialect::standard(), rest, size, all, fields));
                for number in 0..size.fields {
                    if number > 0 {
                        assert!(rt; shown.push(b'|').is_ok());
                    }
                    let (offset, length) = places[number];
                    let field = &text[offset..offset + length];
                    assert!(rt; shown.extend_from_slice(field).is_ok());
                }
                assert!(rt; shown.push(b'/').is_ok());
                assert!(rt; size.ended || rest.len() == size.length);
                rest = &rest[size.length..];
            }
        }
        assert_eq!(rt; shown.as_slice(), *wanted);
        assert!(rt; matches!(record_size(Dialect::standard(), rest), Ok(None)));
    }
}

#[test]
fn a_size_is_refused_where_no_record_can_go_on(rt: HostRuntime) {
    for (ends, bytes, offset, why) in REFUSED {
        let wanted = InvalidRecord { offset: *offset, why: *why };
        match record_size(dialect(b',', *ends, &rt), bytes) {
            Err(fault) => assert!(rt; fault == wanted, "{offset}"),
            Ok(_) => assert!(rt; false, "{offset}"),
        }
    }
}

/// Bytes, the numbers of fields and of bytes of fields in their first record, the record's length,
/// and whether its line ending is present.
const SIZES: &[(&[u8], usize, usize, usize, bool)] = &[
    (b"\n", 1, 0, 1, true),
    (b",\n,", 2, 0, 2, true),
    (b"a,b", 2, 2, 3, false),
    (b"\"a\"\"b\"", 1, 3, 6, false),
    (b"\"\n\",\"\"\"\"\nc", 2, 2, 9, true),
];

#[test]
fn sizes_of_records(rt: HostRuntime) {
    for (bytes, fields, text, length, ended) in SIZES {
        match record_size(dialect(b',', LineEnds::Lf, &rt), bytes) {
            Ok(Some(size)) => {
                assert_eq!(rt; (size.fields, size.text), (*fields, *text));
                assert_eq!(rt; (size.length, size.ended), (*length, *ended));
            }
            _ => assert!(rt; false),
        }
    }
}

#[test]
fn buffers_that_are_too_small_stay(rt: HostRuntime) {
    let bytes = b"ab,\"c\"\"\"\r\n".as_slice();
    if let Ok(Some(size)) = record_size(Dialect::standard(), bytes) {
        for (most, count) in [(3, 2), (4, 1), (0, 0)] {
            let (mut text, mut places) = ([b'.'; 4], [NOWHERE; 2]);
            let (all, fields) = (&mut text[..most], &mut places[..count]);
            assert!(rt; !write_fields(Dialect::standard(), bytes, size, all, fields));
            assert!(rt; text == [b'.'; 4]);
            assert!(rt; places == [NOWHERE; 2]);
        }
        let (mut text, mut places) = ([b'.'; 5], [NOWHERE; 3]);
        let (all, fields) = (text.as_mut_slice(), places.as_mut_slice());
        assert!(rt; write_fields(Dialect::standard(), bytes, size, all, fields));
        assert!(rt; text == *b"abc\".");
        assert!(rt; places == [(0, 2), (2, 2), NOWHERE]);
    }
}
