//! Allocation failures.
use format_json_values::value::parse_value;
use format_json_writer::error::WriteError;
use format_json_writer::value::{reads_back, to_text};
use std::alloc::Global;
use test_support::refusing::Refusing;

const TEXT: &str = "[1, {\"a\": [\"b\", \"a long text, so that memory is asked for again\"]}, {}]";

#[test]
fn to_text_refused_memory(rt: HostRuntime) {
    match parse_value(rt.alloc(), 3, TEXT) {
        Ok(value) => {
            let mut met = true;
            let mut n = 0u64;
            while met {
                let heap: Refusing<Global> = Refusing::once(rt.alloc(), n);
                let wants = matches!(to_text(&heap, 3, &value), Err(WriteError::Memory));
                met = heap.met();
                assert_eq!(rt; wants, met, "{n}");
                n += 1;
            }
            assert!(rt; n > 2);
        }
        Err(_) => assert!(rt; false),
    }
}

#[test]
fn reads_back_refused_memory(rt: HostRuntime) {
    let mut met = true;
    let mut n = 0u64;
    while met {
        let heap: Refusing<Global> = Refusing::once(rt.alloc(), n);
        let Ok(value) = parse_value(&heap, 3, TEXT) else {
            met = heap.met();
            n += 1;
            continue;
        };
        let wants = matches!(reads_back(&heap, 3, &value), Err(WriteError::Memory));
        met = heap.met();
        assert_eq!(rt; wants, met, "{n}");
        n += 1;
    }
    assert!(rt; n > 9);
}
