//! The offsets at which tables are rejected, and the remaining input after an error.
use crate::pieces::Pieces;
use crate::tables::show;
use format_csv_records::error::ReadError;
use format_csv_records::reader::Reader;
use format_csv_records::dialect::{Dialect, LineEnds};
use format_csv_records::read::Reason;
use format_csv_records::record::ByteRecord;
use std::io::ErrorKind;

/// A line ending, a table, the offset of the first invalid byte, and the reason. The offsets are
/// determined by hand from RFC 4180.
const REFUSED: &[(LineEnds, &[u8], u64, Reason)] = &[
    (LineEnds::CrLf, b"a,b\r\nc\"\r\n", 6, Reason::QuoteInField),
    (LineEnds::CrLf, b"a\r\n\"b\"c\r\n", 6, Reason::ByteBehindQuote),
    (LineEnds::CrLf, b"a\r\nb\r\n\"c\r\n", 10, Reason::OpenQuote),
    (LineEnds::CrLf, b"a\nb", 1, Reason::WrongLineEnd),
    (LineEnds::CrLf, b"a\r\nb\r", 5, Reason::WrongLineEnd),
    (LineEnds::Lf, b"a\nb\r\n", 3, Reason::WrongLineEnd),
    (LineEnds::Either, b"a\nb\r\nc\rd", 7, Reason::WrongLineEnd),
];

#[test]
fn a_table_is_refused_at_a_byte_of_it(rt: HostRuntime) {
    let alloc = rt.alloc();
    for (ends, bytes, offset, why) in REFUSED {
        for step in [1, 2, 3, 7] {
            let Ok(lines) = Dialect::new(b',', b'"', *ends) else {
                panic!(rt; "no dialect");
            };
            let mut table = Reader::new(lines, Pieces::new(bytes, step), alloc);
            let (mut fields, mut shown) = (ByteRecord::new(alloc), Vec::new(alloc));
            for _ in 0..2 {
                match show(&rt, &mut table, &mut fields, &mut shown) {
                    Err(ReadError::Invalid(fault)) => {
                        assert_eq!(rt; fault.offset, *offset);
                        assert!(rt; fault.why == *why, "{bytes:?} {step}");
                    }
                    _ => assert!(rt; false, "{bytes:?} {step}"),
                }
                assert!(rt; fields.is_empty());
            }
        }
    }
}

#[test]
fn a_reader_that_fails_once_loses_no_byte(rt: HostRuntime) {
    let alloc = rt.alloc();
    let bytes = b"ab,\"c\r\nd\"\r\ne,f\r\n".as_slice();
    for reads in 0..9 {
        let mut pieces = Pieces::new(bytes, 2);
        pieces.reads = reads;
        let (mut fields, mut shown) = (ByteRecord::new(alloc), Vec::new(alloc));
        let mut table = Reader::new(Dialect::standard(), &mut pieces, alloc);
        match show(&rt, &mut table, &mut fields, &mut shown) {
            Err(ReadError::Failed(error)) => {
                assert!(rt; error.kind() == ErrorKind::PermissionDenied);
            }
            _ => assert!(rt; false, "{reads}"),
        }
        assert!(rt; fields.is_empty());
        assert!(rt; matches!(table.pass_mark(), Ok(false) | Err(ReadError::Failed(_))));
    }
}

/// One read brings both records: so no other is made before the third call.
#[test]
fn more_is_read_only_where_it_decides(rt: HostRuntime) {
    let alloc = rt.alloc();
    let mut pieces = Pieces::new(b"a\r\nb\r\n".as_slice(), 100);
    pieces.reads = 1;
    let mut fields = ByteRecord::new(alloc);
    let mut table = Reader::new(Dialect::standard(), &mut pieces, alloc);
    assert!(rt; matches!(table.next_record(&mut fields), Ok(true)));
    assert!(rt; matches!(table.next_record(&mut fields), Ok(true)));
    assert!(rt; matches!(table.next_record(&mut fields), Err(ReadError::Failed(_))));
}
