//! Allocation failures.
use std::alloc::Global;
use test_support::refusing::Refusing;
use examples::nested::read_tree;
use winnow::error::ParserError;

#[test]
fn read_tree_refused_memory(rt: HostRuntime) {
    let mut met = true;
    let mut n = 0u64;
    while met {
        let heap: Refusing<Global> = Refusing::once(rt.alloc(), n);
        let mut input = b"[1,[2],[[]]]".as_slice();
        let wants = match read_tree(&heap, 3, &mut input) {
            Err(error) => ParserError::<&[u8]>::is_memory(&error),
            Ok(_) => false,
        };
        met = heap.met();
        assert_eq!(rt; wants, met, "{n}");
        n += 1;
    }
    assert!(rt; n > 2);
}
