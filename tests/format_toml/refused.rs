//! Allocation failures.
use std::alloc::Global;
use test_support::refusing::Refusing;
use format_toml::lines::parse_lines;
use winnow::error::{ParseFault, ParserError};

const TEXT: &str = "[a]\nb.'c' = ['c', \"d\", {e = 1}, 1.5, 07:32:00.5] # e\n";

/// A list that cannot be shrunk stays as it is, so only some failures are reported.
#[test]
fn parse_lines_refused_memory(rt: HostRuntime) {
    let mut met = true;
    let mut n = 0u64;
    let mut wanting = 0;
    while met {
        let heap: Refusing<Global> = Refusing::once(rt.alloc(), n);
        match parse_lines(&heap, 2, TEXT) {
            Ok(lines) => assert_eq!(rt; lines.len(), 2, "{n}"),
            Err(ParseFault::Invalid(error)) => {
                assert!(rt; ParserError::<&str>::is_memory(error.inner()), "{n}");
                wanting += 1;
            }
            Err(_) => assert!(rt; false, "{n}"),
        }
        met = heap.met();
        n += 1;
    }
    assert!(rt; wanting > 5);
}
