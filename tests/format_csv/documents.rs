//! Documents and tables of comma separated values.
use std::alloc::Allocator;
use std::fmt::Debug;
use std::process::Abort;
use format_csv::{LineEnd, Record, parse_document};
use winnow::error::ParseFault;

/// A document and the bytes of its records' fields. The first eight are from RFC 4180, section 2.
/// Python's strict `csv.reader` reads the others likewise, except for an empty line, which it reads
/// as a record without fields. By the grammar of the standard that line has one field, which is
/// empty.
const DOCUMENTS: &[(&[u8], &[&[&[u8]]])] = &[
    (b"aaa,bbb,ccc\r\nzzz,yyy,xxx\r\n", &[&[b"aaa", b"bbb", b"ccc"], &[b"zzz", b"yyy", b"xxx"]]),
    (b"aaa,bbb,ccc\r\nzzz,yyy,xxx", &[&[b"aaa", b"bbb", b"ccc"], &[b"zzz", b"yyy", b"xxx"]]),
    (b"aaa,bbb,ccc", &[&[b"aaa", b"bbb", b"ccc"]]),
    (
        b"\"aaa\",\"bbb\",\"ccc\"\r\nzzz,yyy,xxx",
        &[&[b"aaa", b"bbb", b"ccc"], &[b"zzz", b"yyy", b"xxx"]],
    ),
    (
        b"\"aaa\",\"b\r\nbb\",\"ccc\"\r\nzzz,yyy,xxx",
        &[&[b"aaa", b"b\r\nbb", b"ccc"], &[b"zzz", b"yyy", b"xxx"]],
    ),
    (b"\"aaa\",\"b\"\"bb\",\"ccc\"", &[&[b"aaa", b"b\"bb", b"ccc"]]),
    (
        b"field_name,field_name,field_name\r\naaa,bbb,ccc\r\nzzz,yyy,xxx\r\n",
        &[
            &[b"field_name", b"field_name", b"field_name"],
            &[b"aaa", b"bbb", b"ccc"],
            &[b"zzz", b"yyy", b"xxx"],
        ],
    ),
    (b"", &[]),
    (b"\r\n", &[&[b""]]),
    (b"\r\n\r\na", &[&[b""], &[b""], &[b"a"]]),
    (b"a\r\n\r\n", &[&[b"a"], &[b""]]),
    (b",,\r\n", &[&[b"", b"", b""]]),
    (b",", &[&[b"", b""]]),
    (b"\"\"", &[&[b""]]),
    (b"\"x\r\ny\",\r\nz", &[&[b"x\r\ny", b""], &[b"z"]]),
    (b"a\r\nb,c,d\r\ne,f", &[&[b"a"], &[b"b", b"c", b"d"], &[b"e", b"f"]]),
];

/// An invalid document, and the length in bytes of the records before the error.
const NO_DOCUMENTS: &[(&[u8], usize)] = &[
    (b"\"", 0),
    (b"a\n", 0),
    (b"a,b\r\nc\"", 5),
    (b"a\r\n,b c\"", 3),
    (b"a\r\n\"b\" ,c", 3),
    (b"a\r\nb\r", 3),
    (b"\"a\r\nb\r\n", 0),
    (b"a,b\r\n\r\n\"c", 7),
];

fn same<T: PartialEq + Debug + Drop>(rt: &impl Abort, row: &[u8], got: T, want: T) {
    assert_eq!(rt; got, want, "{row:?}");
}

fn same_fields<A: Allocator>(rt: &impl Abort, row: &[u8], got: &Record<A>, want: &[&[u8]]) {
    same(rt, row, got.len(), want.len());
    for (field, bytes) in got.iter().zip(want.iter()) {
        same(rt, row, field.as_slice(), *bytes);
    }
}

#[test]
fn parse_document_of_documents(rt: HostRuntime) {
    for (text, want) in DOCUMENTS {
        match parse_document(rt.alloc(), LineEnd::CrLf, text) {
            Ok(records) => {
                same(&rt, text, records.len(), want.len());
                for (record, fields) in records.iter().zip(want.iter()) {
                    same_fields(&rt, text, record, fields);
                }
            }
            Err(_) => same(&rt, text, true, false),
        }
    }
}

#[test]
fn parse_document_of_none(rt: HostRuntime) {
    for (text, place) in NO_DOCUMENTS {
        match parse_document(rt.alloc(), LineEnd::CrLf, text) {
            Err(ParseFault::Invalid(error)) => same(&rt, text, error.offset(), *place),
            _ => same(&rt, text, true, false),
        }
    }
}

#[test]
fn parse_document_by_line_feeds(rt: HostRuntime) {
    let text = b"a,\"b\r\nc\"\n\nd".as_slice();
    match parse_document(rt.alloc(), LineEnd::Lf, text) {
        Ok(records) => same(&rt, text, records.len(), 3),
        Err(_) => same(&rt, text, true, false),
    }
    let other = b"a\r\nb\r\n".as_slice();
    same(&rt, other, parse_document(rt.alloc(), LineEnd::Lf, other).is_err(), true);
}
