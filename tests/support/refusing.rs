//! An allocator that fails on a chosen allocation, or on all from a chosen one on, and reports
//! whether it did.
//!
//! Allocations are numbered from 0. A test counts up from there until a call meets no failure, and
//! so tries each allocation of the code ([`refused_in_turn`]).
use crate::outcomes::Kind;
use std::alloc::{AllocError, Allocator, Global};
use std::cell::Cell;
use std::fmt::Debug;
use std::process::Abort;

/// The allocations that fail.
#[derive(Clone, Copy)]
enum Plan {
    /// The request with this number, and no other.
    Once(u64),
    /// The request with this number, and each one after it.
    AlwaysFrom(u64),
}

/// An allocator that fails on some allocations, and passes the others on to the one that it was
/// made with.
///
/// An allocation is a call of `allocate`, and each growing or shrinking of a block makes one. A
/// failing one returns the allocation error without calling the inner allocator. Blocks are freed
/// by the inner allocator; freeing is not counted.
///
/// Lend it to the code under test: `&heap` is an `Allocator + Copy`, and `heap.met()` can be called
/// afterwards.
#[derive(Drop)]
pub struct Refusing<B: Allocator> {
    inner: B,
    plan: Plan,
    asked: Cell<u64>,
}

impl<B: Allocator> Refusing<B> {
    /// Refuses the request with number `n` and no other.
    pub fn once(inner: B, n: u64) -> Refusing<B> {
        Refusing {
            inner,
            plan: Plan::Once(n),
            asked: Cell::new(0),
        }
    }

    /// Refuses the request with number `n` and each one after it.
    pub fn always_from(inner: B, n: u64) -> Refusing<B> {
        Refusing {
            inner,
            plan: Plan::AlwaysFrom(n),
            asked: Cell::new(0),
        }
    }

    /// Returns whether an allocation has failed so far.
    pub fn met(&self) -> bool {
        match self.plan {
            Plan::Once(first) | Plan::AlwaysFrom(first) => first < self.asked.get(),
        }
    }
}

unsafe impl<B: Allocator> Allocator for Refusing<B> {
    ghost dealloc_token = { λ heap ty ptr. B.dealloc_token heap.inner ty ptr };

    fn allocate(&self, size: usize, align: usize) -> Result<*mut u8, AllocError> {
        let number = self.asked.get();
        self.asked.set(number + 1);
        let is_refused = match self.plan {
            Plan::Once(first) => number == first,
            Plan::AlwaysFrom(first) => first <= number,
        };
        if is_refused {
            return Err(AllocError);
        }
        self.inner.allocate(size, align)
    }

    unsafe fn deallocate(&self, ptr: *mut u8, size: usize, align: usize) {
        self.inner.deallocate(ptr, size, align);
    }
}

/// Checks that a call returns out of memory if any one of its allocations fails, each in turn.
/// Without a failed allocation it must return `want.0` and leave `want.1` units. It must allocate
/// at least once.
pub fn refused_in_turn<O: PartialEq + Debug + Drop>(
    rt: &impl Abort,
    name: &str,
    alloc: Global,
    mut run: impl FnMut(&Refusing<Global>) -> (Result<O, Kind>, usize),
    want: (Result<O, Kind>, usize),
) {
    for n in 0..100u64 {
        let heap = Refusing::once(alloc, n);
        let got = run(&heap);
        if !heap.met() {
            assert_eq!(rt; got, want, "{name}, with memory");
            assert!(rt; n > 0, "{name} asks for memory");
            return;
        }
        assert_eq!(rt; got.0, Err(Kind::Memory), "{name}, request {n} refused");
    }
    assert!(rt; false, "{name} meets refusals without end");
}
