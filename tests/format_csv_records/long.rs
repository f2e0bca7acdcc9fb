//! Long tables: the buffer is as long as records want.
use crate::pieces::Pieces;
use format_csv_records::reader::Reader;
use format_csv_records::dialect::{Dialect, LineEnds};
use format_csv_records::record::ByteRecord;

/// One record, in quotes.
#[test]
fn a_record_of_many_bytes(rt: HostRuntime) {
    let alloc = rt.alloc();
    let mut bytes = Vec::new(alloc);
    assert!(rt; bytes.push(b'"').is_ok());
    assert!(rt; bytes.resize(100_000, b'a').is_ok());
    assert!(rt; bytes.extend_from_slice(b"\"\r\nb").is_ok());
    for step in [7, 50_000] {
        let pieces = Pieces::new(bytes.as_slice(), step);
        let mut table = Reader::new(Dialect::standard(), pieces, alloc);
        let mut fields = ByteRecord::new(alloc);
        assert!(rt; matches!(table.next_record(&mut fields), Ok(true)));
        assert!(rt; matches!(fields.get(0), Some(field) if field.len() == 99_999));
        assert!(rt; table.buffer_size() < 400_000);
        assert!(rt; matches!(table.next_record(&mut fields), Ok(true)));
        assert!(rt; matches!(table.next_record(&mut fields), Ok(false)));
        assert_eq!(rt; table.offset(), 100_004);
    }
}

/// Short records: the buffer does not grow.
#[test]
fn many_short_records(rt: HostRuntime) {
    let alloc = rt.alloc();
    let Ok(lines) = Dialect::new(b',', b'"', LineEnds::Lf) else {
        panic!(rt; "no dialect");
    };
    let mut bytes = Vec::new(alloc);
    for _ in 0..5_000 {
        assert!(rt; bytes.extend_from_slice(b"abc,\"de\"\n\n").is_ok());
    }
    for step in [7, 20_000] {
        let mut table = Reader::new(lines, Pieces::new(bytes.as_slice(), step), alloc);
        let mut fields = ByteRecord::new(alloc);
        let mut records = 0;
        for _ in 0..10_001 {
            if matches!(table.next_record(&mut fields), Ok(true)) {
                records += 1;
            }
        }
        assert_eq!(rt; records, 10_000);
        assert_eq!(rt; table.buffer_size(), 8192);
        assert_eq!(rt; table.offset(), 50_000);
    }
}
