//! An allocator that counts the bytes that are held.
use std::alloc::{AllocError, Allocator};
use std::cell::Cell;

/// An allocator that counts the bytes of the blocks that it has given and not got back, and the
/// most that these ever were. It passes all requests on to the one that it was made with.
///
/// A block that grows or shrinks is a new block into which the old one is copied, so that both
/// count at the same time.
#[derive(Drop)]
pub struct Counting<B: Allocator> {
    inner: B,
    held: Cell<usize>,
    most: Cell<usize>,
}

impl<B: Allocator> Counting<B> {
    /// An allocator that has given nothing.
    pub fn new(inner: B) -> Counting<B> {
        Counting {
            inner,
            held: Cell::new(0),
            most: Cell::new(0),
        }
    }

    /// Returns the number of bytes that are held.
    pub fn held(&self) -> usize {
        self.held.get()
    }

    /// Returns the greatest number of bytes that were held at the same time.
    pub fn most(&self) -> usize {
        self.most.get()
    }
}

unsafe impl<B: Allocator> Allocator for Counting<B> {
    ghost dealloc_token = { λ heap ty ptr. B.dealloc_token heap.inner ty ptr };

    fn allocate(&self, size: usize, align: usize) -> Result<*mut u8, AllocError> {
        let block = self.inner.allocate(size, align)?;
        let held = self.held.get().saturating_add(size);
        self.held.set(held);
        if self.most.get() < held {
            self.most.set(held);
        }
        Ok(block)
    }

    unsafe fn deallocate(&self, ptr: *mut u8, size: usize, align: usize) {
        self.held.set(self.held.get().saturating_sub(size));
        self.inner.deallocate(ptr, size, align);
    }
}
