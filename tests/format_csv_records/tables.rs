//! Tables, whole and in chunks, with and without a byte order mark.
use std::alloc::Allocator;
use std::io::Read;
use std::process::Abort;
use crate::pieces::{Pieces, Socket};
use format_csv_records::error::ReadError;
use format_csv_records::reader::Reader;
use format_csv_records::dialect::{Dialect, LineEnds};
use format_csv_records::record::ByteRecord;

/// The examples of RFC 4180, section 2, items 1 to 7, and records of other shapes: a table, and its
/// records. A bar separates two fields, and a slash follows each record.
pub const STANDARD: &[(&[u8], &[u8])] = &[
    (b"aaa,bbb,ccc\r\nzzz,yyy,xxx\r\n", b"aaa|bbb|ccc/zzz|yyy|xxx/"),
    (b"aaa,bbb,ccc\r\nzzz,yyy,xxx", b"aaa|bbb|ccc/zzz|yyy|xxx/"),
    (
        b"field_name,field_name,field_name\r\naaa,bbb,ccc\r\nzzz,yyy,xxx\r\n",
        b"field_name|field_name|field_name/aaa|bbb|ccc/zzz|yyy|xxx/",
    ),
    (b"\"aaa\",\"bbb\",\"ccc\"\r\nzzz,yyy,xxx", b"aaa|bbb|ccc/zzz|yyy|xxx/"),
    (
        b"\"aaa\",\"b\r\nbb\",\"ccc\"\r\nzzz,yyy,xxx",
        b"aaa|b\r\nbb|ccc/zzz|yyy|xxx/",
    ),
    (b"\"aaa\",\"b\"\"bb\",\"ccc\"", b"aaa|b\"bb|ccc/"),
    (b"", b""),
    (b"\r\n\r\na", b"//a/"),
    (b",\r\n\"\"", b"|//"),
];

/// Adds the fields of the records to these bytes, to the end of the table.
pub fn show<R: Read, A: Allocator, B: Allocator>(
    rt: &impl Abort,
    table: &mut Reader<R, A>,
    fields: &mut ByteRecord<A>,
    shown: &mut Vec<u8, B>,
) -> Result<bool, ReadError> {
    for _ in 0..1000 {
        match table.next_record(fields) {
            Ok(true) => {
                let mut first = true;
                for field in fields.iter() {
                    if !first {
                        assert!(rt; shown.push(b'|').is_ok());
                    }
                    first = false;
                    assert!(rt; shown.extend_from_slice(field).is_ok());
                }
                assert!(rt; shown.push(b'/').is_ok());
            }
            told => return told,
        }
    }
    Ok(true)
}

#[test]
fn the_examples_of_the_standard_in_pieces(rt: HostRuntime) {
    let alloc = rt.alloc();
    for (bytes, wanted) in STANDARD {
        for step in [1, 2, 3, 7, 100] {
            let pieces = Pieces::new(bytes, step);
            let mut table = Reader::new(Dialect::standard(), pieces, alloc);
            let (mut fields, mut shown) = (ByteRecord::new(alloc), Vec::new(alloc));
            let told = show(&rt, &mut table, &mut fields, &mut shown);
            assert!(rt; matches!(told, Ok(false)), "{bytes:?} {step}");
            assert_eq!(rt; shown.as_slice(), *wanted);
            assert!(rt; fields.is_empty());
            assert_eq!(rt; table.offset(), bytes.len() as u64);
            assert!(rt; matches!(table.next_record(&mut fields), Ok(false)));
        }
    }
}

#[test]
fn a_byte_order_mark_in_pieces(rt: HostRuntime) {
    let alloc = rt.alloc();
    let rows: [(&[u8], bool, &[u8]); 6] = [
        (b"\xef\xbb\xbfa,b\nc", true, b"a|b/c/"),
        (b"\xef\xbb\xbf", true, b""),
        (b"a,b\nc", false, b"a|b/c/"),
        (b"\xef\xbba\n", false, b"\xef\xbba/"),
        (b"\xef\xbb", false, b"\xef\xbb/"),
        (b"", false, b""),
    ];
    let Ok(lines) = Dialect::new(b',', b'"', LineEnds::Lf) else {
        panic!(rt; "no dialect");
    };
    for (bytes, passed, wanted) in rows {
        for step in [1, 2, 3, 7] {
            let mut table = Reader::new(lines, Pieces::new(bytes, step), alloc);
            let (mut fields, mut shown) = (ByteRecord::new(alloc), Vec::new(alloc));
            match table.pass_mark() {
                Ok(told) => assert_eq!(rt; told, passed),
                Err(_) => assert!(rt; false),
            }
            assert_eq!(rt; table.offset(), if passed { 3 } else { 0 });
            let told = show(&rt, &mut table, &mut fields, &mut shown);
            assert!(rt; matches!(told, Ok(false)), "{bytes:?} {step}");
            assert_eq!(rt; shown.as_slice(), wanted);
            assert_eq!(rt; table.offset(), bytes.len() as u64);
        }
    }
}

#[test]
fn a_socket_byte_by_byte(rt: HostRuntime) {
    let alloc = rt.alloc();
    let bytes = b"a,\"b\r\n\"\"\"\r\nc".as_slice();
    let mut table = Reader::new(Dialect::standard(), Socket { bytes, is_ready: false }, alloc);
    let (mut fields, mut shown) = (ByteRecord::new(alloc), Vec::new(alloc));
    let mut failures = 0;
    for _ in 0..60 {
        match show(&rt, &mut table, &mut fields, &mut shown) {
            Err(ReadError::Failed(_)) => failures += 1,
            Ok(more) => assert!(rt; !more),
            _ => assert!(rt; false),
        }
    }
    assert_eq!(rt; shown.as_slice(), b"a|b\r\n\"/c/".as_slice());
    assert!(rt; failures > 12);
}
