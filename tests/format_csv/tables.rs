//! Tables, and invalid tables.
use std::alloc::{Allocator, Global};
use std::fmt::Debug;
use std::process::Abort;
use test_support::refusing::Refusing;
use format_csv::{LineEnd, Record};
use format_csv::table::{Ragged, Table, TableError, parse_table};
use winnow::error::{ParseFault, ParserError};

/// A document with a header, the fields of the header, and the fields of the following records. The
/// first two are from RFC 4180, section 2, items 3 and 4.
const TABLES: &[(&[u8], &[&[u8]], &[&[&[u8]]])] = &[
    (
        b"field_name,field_name,field_name\r\naaa,bbb,ccc\r\nzzz,yyy,xxx\r\n",
        &[b"field_name", b"field_name", b"field_name"],
        &[&[b"aaa", b"bbb", b"ccc"], &[b"zzz", b"yyy", b"xxx"]],
    ),
    (b"aaa,bbb,ccc", &[b"aaa", b"bbb", b"ccc"], &[]),
    (b"a\r\n", &[b"a"], &[]),
    (b"\r\n", &[b""], &[]),
    (b"\r\n\r\n", &[b""], &[&[b""]]),
    (b"a\r\n\r\nb", &[b"a"], &[&[b""], &[b"b"]]),
    (b",\r\n\"\",\"x\r\ny\"", &[b"", b""], &[&[b"", b"x\r\ny"]]),
    (b"\"a,b\",c\r\n1,\"2,3\"\r\n", &[b"a,b", b"c"], &[&[b"1", b"2,3"]]),
];

/// A document, the number of its first record that does not fit the header (counted from 1 after
/// the header), the number of fields of that record, and that of the header.
const RAGGED: &[(&[u8], usize, usize, usize)] = &[
    (b"a,b\r\n1", 1, 1, 2),
    (b"a,b\r\n1,2,3", 1, 3, 2),
    (b"a\r\n1,2", 1, 2, 1),
    (b"a,b\r\n1,2\r\n3\r\n4,5\r\n6,7,8\r\n", 2, 1, 2),
    (b"a,b\r\n1,2\r\n3,4,5\r\n6\r\n", 2, 3, 2),
    (b"a,b\r\n1,2\r\n3,4\r\n\"5,6\"\r\n", 3, 1, 2),
    (b"a,b\r\n1,2\r\n\r\n", 2, 1, 2),
    (b"a,b\r\n\r\n1,2\r\n", 1, 1, 2),
    (b"\r\na,b", 1, 2, 1),
];

/// An invalid document, and the length in bytes of the records before the error.
const NO_DOCUMENTS: &[(&[u8], usize)] = &[
    (b"\"", 0),
    (b"a,b\r\n1,2\n", 5),
    (b"a,b\r\n1\r\n\"2", 8),
    (b"a,b\nc,d\n", 0),
];

fn same<T: PartialEq + Debug + Drop>(rt: &impl Abort, row: &[u8], got: T, want: T) {
    assert_eq!(rt; got, want, "{row:?}");
}

fn same_fields<A: Allocator>(rt: &impl Abort, row: &[u8], got: &Record<A>, want: &[&[u8]]) {
    same(rt, row, got.len(), want.len());
    for (field, bytes) in got.iter().zip(want.iter()) {
        same(rt, row, field.as_slice(), *bytes);
    }
}

#[test]
fn parse_table_of_tables(rt: HostRuntime) {
    for (text, header, records) in TABLES {
        match parse_table(rt.alloc(), LineEnd::CrLf, text) {
            Ok(table) => {
                same_fields(&rt, text, &table.header, header);
                same(&rt, text, table.records.len(), records.len());
                for (record, fields) in table.records.iter().zip(records.iter()) {
                    same_fields(&rt, text, record, fields);
                }
            }
            Err(_) => same(&rt, text, true, false),
        }
    }
}

#[test]
fn parse_table_of_ragged_records(rt: HostRuntime) {
    for (text, number, has, wants) in RAGGED {
        let want = Ragged { number: *number, has: *has, wants: *wants };
        match parse_table(rt.alloc(), LineEnd::CrLf, text) {
            Err(TableError::Width(ragged)) => same(&rt, text, ragged, want),
            _ => same(&rt, text, true, false),
        }
    }
}

#[test]
fn parse_table_of_no_document(rt: HostRuntime) {
    for (text, place) in NO_DOCUMENTS {
        match parse_table(rt.alloc(), LineEnd::CrLf, text) {
            Err(TableError::Document(ParseFault::Invalid(error))) => {
                same(&rt, text, error.offset(), *place);
            }
            _ => same(&rt, text, true, false),
        }
    }
    let none = parse_table(rt.alloc(), LineEnd::CrLf, b"".as_slice());
    same(&rt, b"".as_slice(), matches!(none, Err(TableError::Empty)), true);
}

#[test]
fn parse_table_by_line_feeds(rt: HostRuntime) {
    let text = b"a,b\n1,\"2\r\n\"\n".as_slice();
    match parse_table(rt.alloc(), LineEnd::Lf, text) {
        Ok(table) => {
            same(&rt, text, table.records.len(), 1);
            same_fields(&rt, text, &table.records[0], &[b"1".as_slice(), b"2\r\n".as_slice()]);
        }
        Err(_) => same(&rt, text, true, false),
    }
    let other = b"a,b\r\n1,2\r\n".as_slice();
    let refused = parse_table(rt.alloc(), LineEnd::Lf, other);
    same(&rt, other, matches!(refused, Err(TableError::Document(_))), true);
}

fn has_field<A: Allocator>(table: &Table<A>, fields: &Record<A>, name: &[u8], want: &[u8]) -> bool {
    matches!(table.field_of(fields, name), Some(field) if field.as_slice() == want)
}

#[test]
fn field_of_columns(rt: HostRuntime) {
    let text = b"x,y,x,\r\n1,2,3,4\r\n5,6,7,8\r\n".as_slice();
    match parse_table(rt.alloc(), LineEnd::CrLf, text) {
        Ok(table) => {
            let first = &table.records[0];
            let second = &table.records[1];
            assert!(rt; has_field(&table, first, b"x".as_slice(), b"1".as_slice()));
            assert!(rt; has_field(&table, first, b"y".as_slice(), b"2".as_slice()));
            assert!(rt; has_field(&table, second, b"".as_slice(), b"8".as_slice()));
            assert!(rt; has_field(&table, second, b"x".as_slice(), b"5".as_slice()));
            assert!(rt; table.field_of(first, b"X".as_slice()).is_none());
            assert!(rt; table.field_of(first, b"xy".as_slice()).is_none());
        }
        Err(_) => same(&rt, text, true, false),
    }
}

#[test]
fn field_of_a_record_of_another_table(rt: HostRuntime) {
    let wide = parse_table(rt.alloc(), LineEnd::Lf, b"a,b\n1,2\n".as_slice());
    let narrow = parse_table(rt.alloc(), LineEnd::Lf, b"c\n3\n".as_slice());
    match (wide, narrow) {
        (Ok(wide), Ok(narrow)) => {
            let fields = &narrow.records[0];
            assert!(rt; has_field(&wide, fields, b"a".as_slice(), b"3".as_slice()));
            assert!(rt; wide.field_of(fields, b"b".as_slice()).is_none());
        }
        _ => assert!(rt; false),
    }
}

#[test]
fn parse_table_refused_memory(rt: HostRuntime) {
    let text = b"a,b\r\n\"c\"\"\",d\r\n".as_slice();
    let mut met = true;
    let mut n = 0u64;
    while met {
        let heap: Refusing<Global> = Refusing::once(rt.alloc(), n);
        let wants = match parse_table(&heap, LineEnd::CrLf, text) {
            Err(TableError::Document(ParseFault::Invalid(error))) => {
                ParserError::<&[u8]>::is_memory(error.inner())
            }
            _ => false,
        };
        met = heap.met();
        assert_eq!(rt; wants, met, "{n}");
        n += 1;
    }
    assert!(rt; n > 4);
}
