//! All values of a JSON text as nodes.
pub use crate::exports::JsonNode as Node;

use super::{check, unknown, Kind, Value};
use crate::exports;
#[cfg(feature = "alloc")]
use crate::nodes::OwnedList;
use crate::nodes::{Entry, Inside, List};
use crate::{Error, RequiredSize};
use core::fmt;

/// A text, and the depth to which it was checked.
type Input<'i> = (&'i str, usize);
/// The values in an array or an object, with the names of members.
type Children<'b> = Inside<'b, Input<'b>, Node>;

/// The values of a JSON text, as nodes in a buffer.
#[derive(Clone, Copy, Debug)]
pub struct Nodes<'b>(List<'b, Input<'b>, Node>);

impl<'b> Nodes<'b> {
    /// Returns the value of the whole text.
    pub fn root(&self) -> Item<'b> {
        Item(Entry { list: self.0, index: 0 })
    }

    /// Returns all nodes, in the order of the text.
    pub fn nodes(&self) -> &'b [Node] {
        self.0.nodes
    }

    /// Returns the value or the name that a node is, by its index in [`nodes`](Nodes::nodes). Returns
    /// `None` if there is no such node.
    ///
    /// ```
    /// let nodes = pergidau::json::OwnedNodes::parse("{\"a\": [1, 2]}", 2)?;
    /// let list = nodes.nodes().item(2).unwrap();
    /// assert_eq!(list.text(), "[1, 2]");
    /// # Ok::<(), pergidau::Error>(())
    /// ```
    pub fn item(&self, index: usize) -> Option<Item<'b>> {
        (index < self.0.nodes.len()).then_some(Item(Entry { list: self.0, index }))
    }
}

/// The values of a JSON text, as nodes in a buffer of its own.
#[cfg(feature = "alloc")]
#[derive(Clone, Debug)]
pub struct OwnedNodes<'i>(OwnedList<Input<'i>, Node>);

#[cfg(feature = "alloc")]
impl<'i> OwnedNodes<'i> {
    /// Checks a text and writes its values, like [`nodes`]. The buffer has room for as many nodes as
    /// the text has `,`, `:`, `[` and `{`, but at most one for two bytes, so the text is parsed once.
    ///
    /// ```
    /// use pergidau::json::OwnedNodes;
    ///
    /// let nodes = OwnedNodes::parse("{\"a\": [1, 2]}", 2)?;
    /// assert_eq!(nodes.root().get("a").unwrap().at(1).unwrap().value().as_i64(), Some(2));
    /// # Ok::<(), pergidau::Error>(())
    /// ```
    pub fn parse(text: &'i str, max_depth: usize) -> Result<OwnedNodes<'i>, Error> {
        // SAFETY: the nodes are those of a live vector, and `write` returns how many are written.
        let found = unsafe {
            OwnedList::written((text, max_depth), most_nodes(text), |nodes, room| {
                Ok((write(text, max_depth, nodes, room)?, ()))
            })
        };
        found.map(|(nodes, ())| OwnedNodes(nodes))
    }

    /// Returns the nodes as a slice.
    pub fn nodes(&self) -> Nodes<'_> {
        Nodes(self.0.list())
    }

    /// Returns the value of the whole text.
    pub fn root(&self) -> Item<'_> {
        self.nodes().root()
    }
}

/// A value of a text that was written as nodes.
///
/// The methods visit only the nodes of the elements or members themselves, whatever these contain.
#[derive(Clone, Copy)]
pub struct Item<'b>(Entry<'b, Input<'b>, Node>);

impl fmt::Debug for Item<'_> {
    fn fmt(&self, f: &mut fmt::Formatter<'_>) -> fmt::Result {
        f.debug_struct("Item").field("value", &self.value()).finish()
    }
}

impl<'b> Item<'b> {
    /// Returns the type of the value.
    pub fn kind(&self) -> Kind {
        match self.0.node().kind {
            // A name is a string.
            exports::JSON_NAME => Kind::String,
            kind => Kind::of(kind),
        }
    }

    /// Returns its text as written: a string with its quotes and escapes, an array or an object with
    /// its brackets.
    pub fn text(&self) -> &'b str {
        let node = self.0.node();
        &self.0.list.input.0[node.start..node.end]
    }

    /// Returns the value without its nodes, for conversions of numbers and strings.
    pub fn value(&self) -> Value<'b> {
        Value { kind: self.kind(), text: self.text(), max_depth: self.0.list.input.1 }
    }

    fn children(&self, kind: Kind) -> Children<'b> {
        self.0.inside(self.kind() == kind)
    }

    /// Returns the elements of an array, in order. The iterator is empty if the value is not an
    /// array.
    pub fn elements(&self) -> ItemElements<'b> {
        ItemElements(self.children(Kind::Array))
    }

    /// Returns the members of an object, in order, including repeated ones: the name as written
    /// between its quotes, and the value. The iterator is empty if the value is not an object.
    pub fn members(&self) -> ItemMembers<'b> {
        ItemMembers(self.children(Kind::Object))
    }

    /// Returns the element of an array at this index, from 0 on. Returns `None` if there is none, or
    /// if the value is not an array.
    pub fn at(&self, index: usize) -> Option<Item<'b>> {
        if self.kind() != Kind::Array {
            return None;
        }
        let (nodes, mut found) = (self.0.list.nodes, 0);
        // SAFETY: the pointers are those of live borrows, and the nodes are only read. The call takes up
        // to 4 KiB of stack (measured); with less, the thread's guard page stops the program.
        let code = unsafe {
            exports::exported_json_node_element(
                nodes.as_ptr(), nodes.len(), self.0.index, index, &mut found,
            )
        };
        self.looked_up(code, found)
    }

    /// Returns the value of the first member of this name. Names are compared with their escapes
    /// decoded. Returns `None` if no member has the name, or if the value is not an object.
    ///
    /// ```
    /// use pergidau::json::{self, Node};
    ///
    /// let mut room = [Node::default(); 8];
    /// let nodes = json::nodes("{\"b\": [], \"\\u0061\": 1, \"a\": 2}", 2, &mut room)?;
    /// assert_eq!(nodes.root().get("a").unwrap().value().as_i64(), Some(1));
    /// assert!(nodes.root().get("c").is_none());
    /// # Ok::<(), pergidau::Error>(())
    /// ```
    pub fn get(&self, name: &str) -> Option<Item<'b>> {
        if self.kind() != Kind::Object {
            return None;
        }
        let (text, nodes, mut found) = (self.0.list.input.0, self.0.list.nodes, 0);
        // SAFETY: the pointers are those of live borrows, and bytes and nodes are only read. The call
        // takes up to 4 KiB of stack (measured); with less, the thread's guard page stops the program.
        let code = unsafe {
            exports::exported_json_node_member(
                text.as_ptr(),
                text.len(),
                nodes.as_ptr(),
                nodes.len(),
                self.0.index,
                name.as_ptr(),
                name.len(),
                0,
                &mut found,
            )
        };
        self.looked_up(code, found)
    }

    /// Returns the value at the index that a lookup found.
    fn looked_up(&self, code: u32, index: usize) -> Option<Item<'b>> {
        match code {
            exports::DONE => Some(Item(Entry { list: self.0.list, index })),
            exports::END => None,
            code => unknown(code),
        }
    }
}

/// Returns the next name with its value.
fn member<'b>(children: &mut Children<'b>) -> Option<(Item<'b>, Item<'b>)> {
    Some((Item(children.next()?), Item(children.next()?)))
}

/// The elements of an array.
#[derive(Clone, Copy, Debug)]
pub struct ItemElements<'b>(Children<'b>);

impl<'b> Iterator for ItemElements<'b> {
    type Item = Item<'b>;

    fn next(&mut self) -> Option<Item<'b>> {
        self.0.next().map(Item)
    }
}

/// The members of an object.
#[derive(Clone, Copy, Debug)]
pub struct ItemMembers<'b>(Children<'b>);

impl<'b> Iterator for ItemMembers<'b> {
    type Item = (&'b str, Item<'b>);

    fn next(&mut self) -> Option<Self::Item> {
        let (name, value) = member(&mut self.0)?;
        let name = name.text();
        Some((&name[1..name.len() - 1], value))
    }
}

/// Checks a JSON text (RFC 8259) like [`check`], and writes all its values into `nodes`, in one pass
/// and without allocating. Values are then found without reading the text again.
///
/// # Errors
///
/// - [`Error::BufferTooSmall`] if `nodes` is too small; it holds the required number.
/// - The errors of [`check`].
///
/// ```
/// use pergidau::json::{self, Node};
///
/// let mut room = [Node::default(); 16];
/// let nodes = json::nodes("{\"a\": [1, [2], 3], \"b\": null}", 3, &mut room)?;
/// let list = nodes.root().get("a").unwrap();
/// assert_eq!(list.elements().map(|it| it.text()).collect::<Vec<_>>(), ["1", "[2]", "3"]);
/// assert_eq!(nodes.root().members().last().unwrap().0, "b");
/// assert_eq!(nodes.nodes().len(), 9);
/// # Ok::<(), pergidau::Error>(())
/// ```
pub fn nodes<'b>(
    text: &'b str,
    max_depth: usize,
    nodes: &'b mut [Node],
) -> Result<Nodes<'b>, Error> {
    // SAFETY: the nodes are those of a live borrow.
    let count = unsafe { write(text, max_depth, nodes.as_mut_ptr(), nodes.len()) }?;
    Ok(Nodes(List { input: (text, max_depth), nodes: &nodes[..count] }))
}

/// Returns a number of nodes that is enough for a valid text. Each node except the first has one of
/// four bytes before it. If there are two bytes for each node, strings have the other ones.
#[cfg(feature = "alloc")]
fn most_nodes(text: &str) -> usize {
    let mut count = 1;
    // (a sum of a block fits a byte, so 16 bytes are compared at once)
    for block in text.as_bytes().chunks(224) {
        let is_counted = |it: u8| it == b',' || it == b':' || it | 32 == b'{';
        count += usize::from(block.iter().map(|it| u8::from(is_counted(*it))).sum::<u8>());
    }
    count.min(text.len() / 2 + 1)
}

/// Writes the nodes, and returns their number. `nodes` must be valid for writes of `room` nodes.
unsafe fn write(
    text: &str,
    max_depth: usize,
    nodes: *mut Node,
    room: usize,
) -> Result<usize, Error> {
    let mut count = 0;
    // SAFETY: the pointers are those of live borrows, or of nodes of the caller, and the text is only
    // read. The call takes up to 81 KiB of stack at `MAX_DEPTH` (measured); where there is less, the
    // thread's guard page ends the program.
    let code = unsafe {
        exports::exported_json_nodes(
            text.as_ptr(), text.len(), max_depth, nodes, room, &mut count,
        )
    };
    match code {
        exports::DONE => Ok(count),
        exports::INVALID => Err(check(text.as_bytes(), max_depth).err().unwrap_or(Error::Invalid(None))),
        code => Err(Error::of(code, None, RequiredSize { entries: count, bytes: 0 })),
    }
}
