//! All replies in a reply as nodes.
pub use crate::exports::RespNode as Node;

use super::{error, made, Elements, Protocol, Reply};
use crate::exports;
#[cfg(feature = "alloc")]
use crate::nodes::OwnedList;
use crate::nodes::{Entry, Inside, List};
use crate::{Error, RequiredSize};
use core::fmt;

/// The bytes from the start of a reply on, and the version of its protocol.
type Input<'i> = (&'i [u8], Protocol);

/// The replies in a reply, as nodes in a buffer.
#[derive(Clone, Copy, Debug)]
pub struct Nodes<'b>(List<'b, Input<'b>, Node>);

impl<'b> Nodes<'b> {
    /// Returns the whole reply.
    pub fn root(&self) -> Item<'b> {
        Item(Entry { list: self.0, index: 0 })
    }

    /// Returns all nodes, in the order of the bytes.
    pub fn nodes(&self) -> &'b [Node] {
        self.0.nodes
    }
}

/// The replies in a reply, as nodes in a buffer of its own.
#[cfg(feature = "alloc")]
#[derive(Clone, Debug)]
pub struct OwnedNodes<'i>(OwnedList<Input<'i>, Node>);

#[cfg(feature = "alloc")]
impl<'i> OwnedNodes<'i> {
    /// Parses a reply and writes its nodes, like [`nodes`]. A buffer that is too small grows once.
    ///
    /// ```
    /// use pergidau::resp::{OwnedNodes, Protocol, Reply};
    ///
    /// let (nodes, rest) = OwnedNodes::parse(b"*1\r\n*1\r\n:7\r\n+", Protocol::Resp2, 2)?;
    /// assert_eq!(nodes.root().at(0).unwrap().at(0).unwrap().reply(), Reply::Integer(7));
    /// assert_eq!(rest, b"+");
    /// # Ok::<(), pergidau::Error>(())
    /// ```
    pub fn parse(
        bytes: &'i [u8],
        protocol: Protocol,
        max_depth: usize,
    ) -> Result<(OwnedNodes<'i>, &'i [u8]), Error> {
        let room = bytes.len().min(1 << 16) / 16 + 4;
        // SAFETY: the nodes are those of a live vector, and `write` returns how many are written.
        let found = unsafe {
            OwnedList::written((bytes, protocol), room, |nodes, room| {
                write(bytes, protocol, max_depth, nodes, room)
            })
        };
        found.map(|(nodes, length)| (OwnedNodes(nodes), &bytes[length..]))
    }

    /// Returns the nodes as a slice.
    pub fn nodes(&self) -> Nodes<'_> {
        Nodes(self.0.list())
    }

    /// Returns the whole reply.
    pub fn root(&self) -> Item<'_> {
        self.nodes().root()
    }
}

/// A reply that was written as nodes.
///
/// The methods visit only the nodes of the elements themselves, whatever these contain.
#[derive(Clone, Copy)]
pub struct Item<'b>(Entry<'b, Input<'b>, Node>);

impl fmt::Debug for Item<'_> {
    fn fmt(&self, f: &mut fmt::Formatter<'_>) -> fmt::Result {
        f.debug_struct("Item").field("reply", &self.reply()).finish()
    }
}

impl<'b> Item<'b> {
    /// Returns the reply. The iterator of an aggregate parses its elements again; those of
    /// [`elements`](Item::elements) are not parsed again.
    pub fn reply(&self) -> Reply<'b> {
        let (node, (bytes, protocol)) = (self.0.node(), self.0.list.input);
        let inside = &bytes[node.start..node.end];
        let elements = Elements { left: inside, count: node.elements, protocol };
        made(node.kind, node.number, inside, elements).unwrap_or(Reply::Null)
    }

    /// Returns the elements of an aggregate, in order: those of a map are its keys, each followed by
    /// its value. The iterator is empty if the reply is not an aggregate.
    pub fn elements(&self) -> ItemElements<'b> {
        ItemElements { inside: self.0.inside(true), count: self.0.node().elements }
    }

    /// Returns the element of an aggregate at this index, from 0 on. Returns `None` if there is none,
    /// or if the reply is not an aggregate.
    pub fn at(&self, index: usize) -> Option<Item<'b>> {
        self.elements().nth(index)
    }
}

/// The elements of an aggregate.
#[derive(Clone, Copy, Debug)]
pub struct ItemElements<'b> {
    inside: Inside<'b, Input<'b>, Node>,
    count: usize,
}

impl<'b> Iterator for ItemElements<'b> {
    type Item = Item<'b>;

    fn next(&mut self) -> Option<Item<'b>> {
        self.count = self.count.checked_sub(1)?;
        self.inside.next().map(Item)
    }

    fn size_hint(&self) -> (usize, Option<usize>) {
        (self.count, Some(self.count))
    }
}

impl ExactSizeIterator for ItemElements<'_> {}

/// Parses the reply at the start of `bytes` like [`reply_partial`](super::reply_partial), and writes
/// all replies in it into `nodes`, in one pass and without allocating. Elements are then found without
/// reading the bytes again. Returns the nodes and the rest of the input.
///
/// # Errors
///
/// - [`Error::BufferTooSmall`] if `nodes` is too small; it holds the required number.
/// - The errors of [`reply_partial`](super::reply_partial), except [`Error::NoMemory`].
///
/// ```
/// use pergidau::resp::{self, Node, Protocol, Reply};
///
/// let mut room = [Node::default(); 8];
/// let bytes = b"*2\r\n*2\r\n:1\r\n:2\r\n$3\r\nfoo\r\n";
/// let (nodes, rest) = resp::nodes(bytes, Protocol::Resp2, 2, &mut room)?;
/// assert_eq!(nodes.root().at(0).unwrap().elements().len(), 2);
/// assert_eq!(nodes.root().at(1).unwrap().reply(), Reply::Bulk(b"foo"));
/// assert_eq!((nodes.nodes().len(), rest.len()), (5, 0));
/// # Ok::<(), pergidau::Error>(())
/// ```
pub fn nodes<'i: 'b, 'b>(
    bytes: &'i [u8],
    protocol: Protocol,
    max_depth: usize,
    nodes: &'b mut [Node],
) -> Result<(Nodes<'b>, &'i [u8]), Error> {
    // SAFETY: the nodes are those of a live borrow.
    let (count, length) =
        unsafe { write(bytes, protocol, max_depth, nodes.as_mut_ptr(), nodes.len()) }?;
    let list = List { input: (bytes, protocol), nodes: &nodes[..count] };
    Ok((Nodes(list), &bytes[length..]))
}

/// Writes the nodes, and returns their number and the length of the reply. `nodes` must be valid for
/// writes of `room` nodes.
unsafe fn write(
    bytes: &[u8],
    protocol: Protocol,
    max_depth: usize,
    nodes: *mut Node,
    room: usize,
) -> Result<(usize, usize), Error> {
    let mut out = exports::RespNodesSize::default();
    let version = protocol.number();
    // SAFETY: the pointers are those of live borrows, or of nodes of the caller, and the bytes are only
    // read. The call takes up to 89 KiB of stack at `MAX_DEPTH` (measured); where there is less, the
    // thread's guard page ends the program.
    let code = unsafe {
        exports::exported_resp_nodes(
            bytes.as_ptr(), bytes.len(), version, max_depth, nodes, room, &mut out,
        )
    };
    match code {
        exports::DONE => Ok((out.count, out.length)),
        exports::BUFFER_TOO_SMALL => {
            Err(Error::BufferTooSmall(RequiredSize { entries: out.count, bytes: 0 }))
        }
        code => Err(error(code, out.error_offset)),
    }
}
