//! Tables of JSON texts and their nodes, from Rust.
use pergidau::json::{self, Item, Kind, Node, OwnedNodes, Value};
use pergidau::{Error, RequiredSize};
use std::alloc::{GlobalAlloc, Layout, System};
use std::cell::Cell;
use std::mem::size_of;

const TEXTS: [&str; 6] = [
    " null ",
    "[true , false,\n-1e2]",
    "{\"a\": [1, {\"b\" : \"c\"}], \"d\":{}}",
    "[[], [[]], {\"\": []}]",
    "{\"\\u0061\": 1, \"a\": 2, \"\\\"\": 3}",
    "\"\\ud83d\\ude00\"",
];

/// Checks an item and its contents against the value of the same text.
fn same(item: Item<'_>, value: Value<'_>) {
    assert_eq!(item.value(), value);
    assert_eq!((item.kind(), item.text()), (value.kind(), value.text()));
    assert_eq!(item.elements().count(), value.elements().count());
    assert_eq!(item.members().count(), value.members().count());
    for (index, (below, wanted)) in item.elements().zip(value.elements()).enumerate() {
        assert_eq!(item.at(index).map(|it| it.text()), Some(wanted.text()));
        same(below, wanted);
    }
    for ((name, below), (wanted_name, wanted)) in item.members().zip(value.members()) {
        assert_eq!(name, wanted_name);
        same(below, wanted);
    }
    for name in ["a", "d", "\"", ""] {
        assert_eq!(item.get(name).map(|it| it.text()), value.get(name).map(|it| it.text()));
    }
}

#[test]
fn nodes_of_texts() {
    for text in TEXTS {
        let mut room = [Node::default(); 16];
        let nodes = json::nodes(text, 4, &mut room).unwrap();
        let value = json::parse(text, 4).unwrap();
        same(nodes.root(), value);
        same(OwnedNodes::parse(text, 4).unwrap().root(), value);
        assert_eq!(nodes.nodes().len(), OwnedNodes::parse(text, 4).unwrap().nodes().nodes().len());
        for (index, node) in nodes.nodes().iter().enumerate() {
            let item = nodes.item(index).map(|it| it.text());
            assert_eq!(item, Some(&text[node.start..node.end]));
        }
        assert!(nodes.item(nodes.nodes().len()).is_none());
    }
}

#[test]
fn errors_of_nodes() {
    let mut room = [Node::default(); 2];
    let small = Error::BufferTooSmall(RequiredSize { entries: 3, bytes: 0 });
    assert_eq!(json::nodes("[1, 2]", 1, &mut room).err(), Some(small));
    assert_eq!(json::nodes("[1,]", 1, &mut room).err(), Some(Error::Invalid(Some(3))));
    assert_eq!(json::nodes("[[]]", 1, &mut room).err(), Some(Error::TooDeep(1)));
    assert_eq!(json::nodes("1", 513, &mut room).err(), Some(Error::MaxDepthTooLarge));
    assert_eq!(OwnedNodes::parse("[", 1).err(), Some(Error::Invalid(Some(1))));
}

/// Counts the allocations of a thread, and their bytes.
struct Counting;

thread_local! {
    static COUNTED: Cell<(usize, usize)> = const { Cell::new((0, 0)) };
}

// SAFETY: it passes all requests to the allocator of the system.
unsafe impl GlobalAlloc for Counting {
    unsafe fn alloc(&self, layout: Layout) -> *mut u8 {
        let (count, bytes) = COUNTED.get();
        COUNTED.set((count + 1, bytes + layout.size()));
        System.alloc(layout)
    }

    unsafe fn dealloc(&self, block: *mut u8, layout: Layout) {
        System.dealloc(block, layout);
    }
}

#[global_allocator]
static COUNTING: Counting = Counting;

/// Returns the nodes of a valid text. The first buffer must be large enough, but may not have more than
/// a node for two bytes. Only nodes of a buffer that is too large are copied.
fn nodes_of(text: &str, is_shrunk: bool) -> Vec<Node> {
    COUNTED.set((0, 0));
    let nodes = OwnedNodes::parse(text, 4).unwrap();
    let (count, bytes) = COUNTED.get();
    let copied = if is_shrunk { nodes.nodes().nodes().len() } else { 0 };
    assert_eq!(count, 1 + usize::from(is_shrunk), "{text}");
    assert!(bytes <= (text.len() / 2 + 1 + copied) * size_of::<Node>(), "{text}");
    nodes.nodes().nodes().to_vec()
}

#[test]
fn each_text_is_parsed_once() {
    // Parts with the most nodes for their length.
    for part in ["0", "[]", "{}", "\"\"", "[[0]]", "{\"\":0}", "{\"\":{\"\":[]}}"] {
        for count in [1, 2, 300] {
            let text = format!("[{}]", vec![part; count].join(","));
            let mut room = vec![Node::default(); text.len()];
            let nodes = json::nodes(&text, 4, &mut room).unwrap().nodes();
            assert_eq!(nodes_of(&text, false), nodes);
            assert_eq!(nodes_of(part, false)[0].next, (nodes.len() - 1) / count);
        }
    }
    // Most of the bytes that are counted are in strings.
    assert_eq!(nodes_of(&format!("\"{}\"", ",".repeat(90)), true).len(), 1);
    assert_eq!(nodes_of(&format!("[\"{}\"]", ":".repeat(9000)), true).len(), 2);
    // Texts that are not valid, with fewer such bytes than values.
    for text in ["", "1 2 3", "[1 2 3]", "\"\"\"\"", "{\"\" 1}", "[]]", "[[]", "[1,,2]"] {
        let mut room = [Node::default(); 8];
        let error = json::nodes(text, 4, &mut room).err().unwrap();
        assert_eq!(OwnedNodes::parse(text, 4).err(), Some(error));
    }
}

#[test]
fn elements_of_many() {
    let text = "[".to_string() + &"0,".repeat(1000) + "0]";
    let nodes = OwnedNodes::parse(&text, 1).unwrap();
    assert_eq!(nodes.nodes().nodes().len(), 1002);
    assert_eq!(nodes.root().kind(), Kind::Array);
    assert_eq!(nodes.root().at(1000).unwrap().value().as_i64(), Some(0));
    assert!(nodes.root().at(1001).is_none());
}
