//! Allocation failures, and how few allocations are made.
use std::alloc::Global;
use test_support::refusing::Refusing;
use format_csv_records::dialect::{Dialect, LineEnds};
use format_csv_records::read::{RecordError, read_record_into};
use format_csv_records::record::ByteRecord;
use format_csv_records::records::Records;
use format_csv_records::write::{WriteError, write_record};

#[test]
fn read_record_into_refused_memory(rt: HostRuntime) {
    let mut met = true;
    let mut n = 0u64;
    while met {
        let heap: Refusing<Global> = Refusing::once(rt.alloc(), n);
        let mut fields = ByteRecord::new(&heap);
        let text = b"a,\"c\"\"\",ddddddddddddddddddddddddddd\r\n".as_slice();
        let mut input = text;
        let told = read_record_into(Dialect::standard(), &mut fields, &mut input);
        met = heap.met();
        assert_eq!(rt; told == Err(RecordError::OutOfMemory), met, "{n}");
        if met {
            assert_eq!(rt; input, text);
            assert!(rt; fields.is_empty());
            assert!(rt; read_record_into(Dialect::standard(), &mut fields, &mut input) == Ok(true));
            assert_eq!(rt; fields.len(), 3);
        }
        n += 1;
    }
    assert!(rt; n > 2);
}

#[test]
fn write_record_refused_memory(rt: HostRuntime) {
    let mut met = true;
    let mut n = 0u64;
    while met {
        let heap: Refusing<Global> = Refusing::once(rt.alloc(), n);
        let mut out = Vec::new(&heap);
        let fields = [b"a".as_slice(), b"b,\"ccccccccccccccccccccccccccccccccccc".as_slice()];
        let told = write_record(Dialect::standard(), fields.as_slice(), &mut out);
        met = heap.met();
        assert_eq!(rt; told == Err(WriteError::OutOfMemory), met, "{n}");
        assert_eq!(rt; out.is_empty(), met);
        n += 1;
    }
    assert!(rt; n > 2);
}

#[test]
fn a_long_document_wants_the_memory_of_one_record(rt: HostRuntime) {
    let alloc = rt.alloc();
    let mut bytes = Vec::new(alloc);
    for _ in 0..100000 {
        assert!(rt; bytes.push(b'\n').is_ok());
    }
    // One request, for the list of ends; a second one would fail.
    let heap: Refusing<Global> = Refusing::once(alloc, 1);
    let mut fields = ByteRecord::new(&heap);
    match Dialect::new(b',', b'"', LineEnds::Lf) {
        Ok(dialect) => {
            let mut records = Records::new(dialect, bytes.as_slice());
            for _ in 0..100000 {
                assert!(rt; records.next_record(&mut fields) == Ok(true));
            }
            assert!(rt; records.next_record(&mut fields) == Ok(false));
        }
        Err(_) => assert!(rt; false),
    }
    assert!(rt; !heap.met());
}
