//! Allocation failures.
use format_dns::fault::PartError;
use format_dns::record::read_records;
use std::alloc::Global;
use test_support::refusing::Refusing;

/// A question and records of each kind that has names or strings.
const MESSAGE: &[u8] = b"\0\0\0\0\0\x01\0\x02\0\x02\0\0\
\x01a\0\0\xff\0\x01\
\xc0\x0c\0\x0f\0\x01\0\0\0\0\0\x04\0\0\xc0\x0c\
\xc0\x0c\0\x10\0\x01\0\0\0\0\0\x02\x01a\
\xc0\x0c\0\x06\0\x01\0\0\0\0\0\x18\xc0\x0c\xc0\x0c\0\0\0\0\0\0\0\0\0\0\0\0\0\0\0\0\0\0\0\0\
\xc0\x0c\0\x21\0\x01\0\0\0\0\0\x08\0\0\0\0\0\0\xc0\x0c";

#[test]
fn read_records_refused_memory(rt: HostRuntime) {
    let mut met = true;
    let mut n = 0u64;
    while met {
        let heap: Refusing<Global> = Refusing::once(rt.alloc(), n);
        let records = read_records(&heap, 1, MESSAGE, 19, 4);
        let wants = matches!(records, Err(PartError::NoMemory));
        met = heap.met();
        assert_eq!(rt; wants, met, "{n}");
        n += 1;
    }
    assert!(rt; n > 10);
}
