//! The failing allocator: which allocations fail, the contents that are kept after a failure, and
//! that blocks are freed.
use std::alloc::{AllocError, AllocFailed, Allocator, Global};
use std::cell::Cell;
use std::test::Fail;
use test_support::refusing::Refusing;

/// Passes each call on to `inner`, and counts it.
#[derive(Drop)]
struct Counted<B: Allocator> {
    inner: B,
    calls: Cell<u64>,
}

impl<B: Allocator> Counted<B> {
    fn new(inner: B) -> Counted<B> {
        Counted {
            inner,
            calls: Cell::new(0),
        }
    }

    fn calls(&self) -> u64 {
        self.calls.get()
    }
}

unsafe impl<B: Allocator> Allocator for Counted<B> {
    ghost dealloc_token = { λ heap ty ptr. B.dealloc_token heap.inner ty ptr };

    fn allocate(&self, size: usize, align: usize) -> Result<*mut u8, AllocError> {
        self.calls.set(self.calls.get() + 1);
        self.inner.allocate(size, align)
    }

    unsafe fn deallocate(&self, ptr: *mut u8, size: usize, align: usize) {
        self.calls.set(self.calls.get() + 1);
        self.inner.deallocate(ptr, size, align);
    }
}

const COUNT: u64 = 20;

/// Pushes the numbers below `COUNT`, up to the first that there is no memory for.
fn fill<A: Allocator>(numbers: &mut Vec<u64, A>) -> Result<(), AllocFailed<u64>> {
    for number in 0..COUNT {
        numbers.push(number)?;
    }
    Ok(())
}

/// Makes one request, and tells whether it was granted.
fn is_granted<A: Allocator>(alloc: A) -> bool {
    Vec::<u64, A>::with_capacity(alloc, 1).is_ok()
}

#[test]
fn each_refusal_is_the_memory_error(rt: HostRuntime) {
    let mut refused_runs = 0;
    let mut most_kept = 0;
    let mut is_done = false;
    for n in 0..100u64 {
        let heap = Refusing::once(rt.alloc(), n);
        let mut numbers = Vec::new(&heap);
        let answer = fill(&mut numbers);
        for (number, kept) in (0..COUNT).zip(numbers.iter()) {
            assert_eq!(rt; *kept, number, "refused at {n}");
        }
        if !heap.met() {
            assert!(rt; answer.is_ok(), "no refusal, and an error");
            assert_eq!(rt; numbers.len(), COUNT as usize);
            is_done = true;
            break;
        }
        refused_runs = n + 1;
        assert!(rt; n == 0 || most_kept < numbers.len(), "refused at {n}");
        most_kept = numbers.len();
        match answer {
            Ok(()) => assert!(rt; false, "an answer after a refusal at {n}"),
            Err(failed) => assert_eq!(rt; failed.value, numbers.len() as u64, "refused at {n}"),
        }
        assert!(rt;
            numbers.push(0).is_ok(),
            "a request after the refusal at {n}"
        );
    }
    assert!(rt; is_done);
    assert!(rt; refused_runs > 1);
}

#[test]
fn requests_are_counted_from_zero(rt: HostRuntime) {
    for n in 0..4u64 {
        let once = Refusing::once(rt.alloc(), n);
        let lasting = Refusing::always_from(rt.alloc(), n);
        for number in 0..6u64 {
            assert_eq!(rt; once.met(), n < number, "once at {n}, before {number}");
            assert_eq!(rt; lasting.met(), n < number, "from {n} on, before {number}");
            assert_eq!(rt;
                is_granted(&once),
                number != n,
                "once at {n}, request {number}"
            );
            assert_eq!(rt;
                is_granted(&lasting),
                number < n,
                "from {n} on, request {number}"
            );
        }
    }
}

#[test]
fn granted_blocks_are_had_and_given_back(rt: HostRuntime) -> Result<(), Fail> {
    let counted = Counted::new(rt.alloc());
    let heap = Refusing::once(&counted, 1);
    let first = Vec::<u64, &Refusing<&Counted<Global>>>::with_capacity(&heap, 1)?;
    assert_eq!(rt; counted.calls(), 1);
    assert!(rt; !is_granted(&heap));
    assert_eq!(rt; counted.calls(), 1, "the refused request went no further");
    drop(first);
    assert_eq!(rt; counted.calls(), 2, "the block was given back");
    assert!(rt; is_granted(&heap));
    assert_eq!(rt; counted.calls(), 4, "one was had and given back");
    Ok(())
}
