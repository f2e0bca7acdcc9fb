//! Lists of nodes, for each format whose nodes have the index after everything in them.
use crate::exports::{JsonNode, RespNode};
#[cfg(feature = "alloc")]
use crate::Error;
#[cfg(feature = "alloc")]
use alloc::vec::Vec;

/// A node of a list.
pub(crate) trait Node: Copy {
    /// Returns the index of the node after it and everything in it.
    fn next(&self) -> usize;
}

impl Node for JsonNode {
    fn next(&self) -> usize {
        self.next
    }
}

impl Node for RespNode {
    fn next(&self) -> usize {
        self.next
    }
}

/// An input, with how it was parsed, and its nodes.
#[derive(Clone, Copy, Debug)]
pub(crate) struct List<'b, I, N> {
    pub(crate) input: I,
    pub(crate) nodes: &'b [N],
}

/// The same with a buffer of its own.
#[cfg(feature = "alloc")]
#[derive(Clone, Debug)]
pub(crate) struct OwnedList<I, N> {
    input: I,
    nodes: Vec<N>,
}

#[cfg(feature = "alloc")]
impl<I: Copy, N> OwnedList<I, N> {
    /// Calls `write` with a buffer and its number of nodes, which is `room` at first. If it is too
    /// small, `write` is called again with a buffer of the required size.
    ///
    /// # Safety
    ///
    /// If `write` succeeds, it has written as many nodes as the first number that it returns.
    pub(crate) unsafe fn written<R>(
        input: I,
        room: usize,
        write: impl Fn(*mut N, usize) -> Result<(usize, R), Error>,
    ) -> Result<(OwnedList<I, N>, R), Error> {
        let mut nodes: Vec<N> = Vec::with_capacity(room);
        let (count, other) = loop {
            match write(nodes.as_mut_ptr(), nodes.capacity()) {
                Err(Error::BufferTooSmall(required)) if required.entries > nodes.capacity() => {
                    nodes = Vec::with_capacity(required.entries);
                }
                found => break found?,
            }
        };
        // SAFETY: the caller promises that they were written.
        unsafe { nodes.set_len(count) };
        if count < nodes.capacity() / 4 {
            nodes.shrink_to_fit();
        }
        Ok((OwnedList { input, nodes }, other))
    }

    /// Returns the nodes as a slice.
    pub(crate) fn list(&self) -> List<'_, I, N> {
        List { input: self.input, nodes: &self.nodes }
    }
}

/// A node of a list, with the others.
#[derive(Clone, Copy)]
pub(crate) struct Entry<'b, I, N> {
    pub(crate) list: List<'b, I, N>,
    pub(crate) index: usize,
}

impl<'b, I: Copy, N: Node> Entry<'b, I, N> {
    /// Returns the node.
    pub(crate) fn node(&self) -> &'b N {
        &self.list.nodes[self.index]
    }

    /// Returns the nodes in it, without those in them, or none if it does not have this kind.
    pub(crate) fn inside(&self, has_kind: bool) -> Inside<'b, I, N> {
        let end = if has_kind { self.node().next() } else { 0 };
        Inside { list: self.list, index: self.index + 1, end }
    }
}

/// The nodes in a node, without those in them.
#[derive(Clone, Copy, Debug)]
pub(crate) struct Inside<'b, I, N> {
    list: List<'b, I, N>,
    index: usize,
    end: usize,
}

impl<'b, I: Copy, N: Node> Iterator for Inside<'b, I, N> {
    type Item = Entry<'b, I, N>;

    fn next(&mut self) -> Option<Entry<'b, I, N>> {
        if self.index >= self.end {
            return None;
        }
        let entry = Entry { list: self.list, index: self.index };
        self.index = entry.node().next();
        Some(entry)
    }
}
