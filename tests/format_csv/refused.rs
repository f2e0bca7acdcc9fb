//! Allocation failures.
use std::alloc::Global;
use test_support::refusing::Refusing;
use format_csv::{LineEnd, parse_document, read_record};
use winnow::error::{ParseFault, ParserError};

const TEXT: &[u8] = b"a,b\r\n\"c\"\"\",d\r\n";

#[test]
fn parse_document_refused_memory(rt: HostRuntime) {
    let mut met = true;
    let mut n = 0u64;
    while met {
        let heap: Refusing<Global> = Refusing::once(rt.alloc(), n);
        let wants = match parse_document(&heap, LineEnd::CrLf, TEXT) {
            Err(ParseFault::Invalid(error)) => ParserError::<&[u8]>::is_memory(error.inner()),
            _ => false,
        };
        met = heap.met();
        assert_eq!(rt; wants, met, "{n}");
        n += 1;
    }
    assert!(rt; n > 4);
}

#[test]
fn read_record_refused_memory(rt: HostRuntime) {
    let mut met = true;
    let mut n = 0u64;
    while met {
        let heap: Refusing<Global> = Refusing::once(rt.alloc(), n);
        let mut input = b"\"c\"\"\",d\r\n".as_slice();
        let wants = match read_record(&heap, LineEnd::CrLf, &mut input) {
            Err(error) => ParserError::<&[u8]>::is_memory(&error),
            Ok(_) => false,
        };
        met = heap.met();
        assert_eq!(rt; wants, met, "{n}");
        n += 1;
    }
    assert!(rt; n > 2);
}
