//! Records and documents: fields, the rest, and the first byte that cannot continue a record.
use std::process::Abort;
use format_csv_records::dialect::{Dialect, LineEnds};
use format_csv_records::read::{RecordError, InvalidRecord, Reason, read_record_into};
use format_csv_records::record::ByteRecord;
use format_csv_records::records::{Records, skip_mark, column_of, field_of};

pub fn dialect(delimiter: u8, ends: LineEnds, rt: &impl Abort) -> Dialect {
    match Dialect::new(delimiter, b'"', ends) {
        Ok(it) => it,
        Err(_) => panic!(rt; "no dialect"),
    }
}

/// The examples of RFC 4180, section 2, items 1 to 7: a document, and its records. A bar separates
/// two fields, and a slash follows each record.
pub const STANDARD: &[(&[u8], &[u8])] = &[
    (b"aaa,bbb,ccc\r\nzzz,yyy,xxx\r\n", b"aaa|bbb|ccc/zzz|yyy|xxx/"),
    (b"aaa,bbb,ccc\r\nzzz,yyy,xxx", b"aaa|bbb|ccc/zzz|yyy|xxx/"),
    (
        b"field_name,field_name,field_name\r\naaa,bbb,ccc\r\nzzz,yyy,xxx\r\n",
        b"field_name|field_name|field_name/aaa|bbb|ccc/zzz|yyy|xxx/",
    ),
    (b"aaa,bbb,ccc", b"aaa|bbb|ccc/"),
    (b"\"aaa\",\"bbb\",\"ccc\"\r\nzzz,yyy,xxx", b"aaa|bbb|ccc/zzz|yyy|xxx/"),
    (
        b"\"aaa\",\"b\r\nbb\",\"ccc\"\r\nzzz,yyy,xxx",
        b"aaa|b\r\nbb|ccc/zzz|yyy|xxx/",
    ),
    (b"\"aaa\",\"b\"\"bb\",\"ccc\"", b"aaa|b\"bb|ccc/"),
];

#[test]
fn the_examples_of_the_standard(rt: HostRuntime) {
    let alloc = rt.alloc();
    let mut fields = ByteRecord::new(alloc);
    for (bytes, wanted) in STANDARD {
        let mut records = Records::new(Dialect::standard(), bytes);
        let mut shown = Vec::new(alloc);
        for _ in 0..9 {
            if records.next_record(&mut fields) == Ok(true) {
                let mut first = true;
                for field in fields.iter() {
                    if !first {
                        assert!(rt; shown.push(b'|').is_ok());
                    }
                    first = false;
                    assert!(rt; shown.extend_from_slice(field).is_ok());
                }
                assert!(rt; shown.push(b'/').is_ok());
            }
        }
        assert_eq!(rt; shown.as_slice(), *wanted);
        assert!(rt; records.next_record(&mut fields) == Ok(false));
        assert!(rt; fields.is_empty());
        assert_eq!(rt; records.offset(), bytes.len());
    }
}

/// A line ending, bytes that do not start with a record, the offset of the error, and the reason.
/// The offsets are determined by hand: the first byte that cannot continue a record.
pub const REFUSED: &[(LineEnds, &[u8], usize, Reason)] = &[
    (LineEnds::Lf, b"a\"", 1, Reason::QuoteInField),
    (LineEnds::Lf, b"a,b\"c\n", 3, Reason::QuoteInField),
    (LineEnds::Lf, b"\"a\"b", 3, Reason::ByteBehindQuote),
    (LineEnds::Lf, b"\"a\" ,b", 3, Reason::ByteBehindQuote),
    (LineEnds::Lf, b"\"", 1, Reason::OpenQuote),
    (LineEnds::Lf, b"a,\"b\"\",\n", 8, Reason::OpenQuote),
    (LineEnds::Lf, b"a\r\n", 1, Reason::WrongLineEnd),
    (LineEnds::Lf, b"\"a\"\r\n", 3, Reason::WrongLineEnd),
    (LineEnds::CrLf, b"a\n", 1, Reason::WrongLineEnd),
    (LineEnds::CrLf, b"\n", 0, Reason::WrongLineEnd),
    (LineEnds::CrLf, b"a\r", 2, Reason::WrongLineEnd),
    (LineEnds::CrLf, b"a\rb", 2, Reason::WrongLineEnd),
    (LineEnds::CrLf, b"a\r\r\n", 2, Reason::WrongLineEnd),
    (LineEnds::Either, b"a,b\rc", 4, Reason::WrongLineEnd),
    (LineEnds::Either, b"\r", 1, Reason::WrongLineEnd),
];

#[test]
fn refused_where_no_record_can_go_on(rt: HostRuntime) {
    let mut fields = ByteRecord::new(rt.alloc());
    for (ends, bytes, offset, why) in REFUSED {
        let mut input = *bytes;
        let told = read_record_into(dialect(b',', *ends, &rt), &mut fields, &mut input);
        let fault = InvalidRecord { offset: *offset, why: *why };
        assert!(rt; told == Err(RecordError::Invalid(fault)), "{offset}");
        assert_eq!(rt; input, *bytes);
        assert!(rt; fields.is_empty());
    }
}

#[test]
fn either_line_end_at_each_record_anew(rt: HostRuntime) {
    let bytes = b"a;b\nc,d\r\n\n\r\n".as_slice();
    let mut records = Records::new(dialect(b';', LineEnds::Either, &rt), bytes);
    let mut fields = ByteRecord::new(rt.alloc());
    for wanted in [2, 1, 1, 1] {
        assert!(rt; records.next_record(&mut fields) == Ok(true));
        assert_eq!(rt; fields.len(), wanted);
    }
    assert!(rt; records.next_record(&mut fields) == Ok(false));
}

#[test]
fn a_header_and_its_names(rt: HostRuntime) {
    let bytes = b"\xef\xbb\xbfname,size,name\nx,1,y\nz\n".as_slice();
    let rest = match skip_mark(bytes) {
        Some(rest) => rest,
        None => bytes,
    };
    assert_eq!(rt; bytes.len() - rest.len(), 3);
    assert!(rt; skip_mark(rest).is_none());
    assert!(rt; skip_mark(b"\xef\xbb".as_slice()).is_none());
    let alloc = rt.alloc();
    let (mut header, mut fields) = (ByteRecord::new(alloc), ByteRecord::new(alloc));
    let mut records = Records::new(dialect(b',', LineEnds::Lf, &rt), rest);
    assert!(rt; records.next_record(&mut header) == Ok(true));
    assert_eq!(rt; column_of(&header, b"name".as_slice()), Some(0));
    assert_eq!(rt; column_of(&header, b"size".as_slice()), Some(1));
    assert_eq!(rt; column_of(&header, b"siz".as_slice()), None);
    assert!(rt; records.next_record(&mut fields) == Ok(true));
    let size = field_of(&header, &fields, b"size".as_slice());
    assert!(rt; matches!(size, Some(it) if it == b"1".as_slice()));
    assert!(rt; records.next_record(&mut fields) == Ok(true));
    assert!(rt; field_of(&header, &fields, b"size".as_slice()).is_none());
    assert!(rt; fields.get(0).is_some());
    assert!(rt; fields.get(1).is_none());
}

#[test]
fn what_was_there_before_does_not_matter(rt: HostRuntime) {
    let mut fields = ByteRecord::new(rt.alloc());
    let mut long = b"aaaaaaaaaaaaaaaaaaaaaaaaa,bbbbbbbbbbbb,c\n".as_slice();
    let lines = dialect(b',', LineEnds::Lf, &rt);
    assert!(rt; read_record_into(lines, &mut fields, &mut long) == Ok(true));
    let mut short = b"d\n".as_slice();
    assert!(rt; read_record_into(lines, &mut fields, &mut short) == Ok(true));
    assert_eq!(rt; fields.len(), 1);
    assert!(rt; matches!(fields.get(0), Some(field) if field == b"d".as_slice()));
}
