//! Allocation failures.
use format_dns::fault::PartError;
use format_dns::name::read_name;
use format_dns::question::read_questions;
use std::alloc::Global;
use test_support::refusing::Refusing;

#[test]
fn read_name_refused_memory(rt: HostRuntime) {
    let mut met = true;
    let mut n = 0u64;
    while met {
        let heap: Refusing<Global> = Refusing::once(rt.alloc(), n);
        let name = read_name(&heap, 1, b"\x01a\0\x01b\xc0\0".as_slice(), 3);
        let wants = matches!(name, Err(PartError::NoMemory));
        met = heap.met();
        assert_eq!(rt; wants, met, "{n}");
        n += 1;
    }
    assert!(rt; n > 2);
}

#[test]
fn read_questions_refused_memory(rt: HostRuntime) {
    let mut met = true;
    let mut n = 0u64;
    while met {
        let heap: Refusing<Global> = Refusing::once(rt.alloc(), n);
        let message = b"\x01a\0\0\x01\0\x01\x01b\xc0\0\0\x01\0\x01".as_slice();
        let questions = read_questions(&heap, 1, message, 0, 2);
        let wants = matches!(questions, Err(PartError::NoMemory));
        met = heap.met();
        assert_eq!(rt; wants, met, "{n}");
        n += 1;
    }
    assert!(rt; n > 3);
}
