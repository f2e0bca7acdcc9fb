//! Nodes compared with the tree that they are written from, and buffers that are too small.
use format_toml_document::{Document, Node, Tree, from_text};
use format_toml_nodes::find::find_entry;
use format_toml_nodes::node::{NO_NODE, TOML_ARRAY, TOML_TABLE, TomlNode};
use format_toml_nodes::nodes::{size_of, write_nodes};
use std::alloc::Global;
use std::process::Abort;

const TEXTS: [&str; 6] = [
    "",
    "a = 1\nb = [1, [2], {c.d = 3, e = 'f'}, []]\n",
    "[a.b]\nc = 1\n[d]\n[a]\ne = 2\n",
    "[[p]]\nn = 1\n[p.q]\nx = 2\n[[p]]\n[[p.r]]\n[[p.r]]\n",
    "f = -1_0.5\nt = true\nd = 1979-05-27T07:32:00.5-08:00\n",
    "\"\" = \"\\u00e9\"\nx.y.z = 07:32:00\n",
];

/// Checks a node and its contents against the tree: the same entries and elements in the same
/// order.
fn same(rt: &impl Abort, node: Node<'_, '_, Global>, nodes: &[TomlNode], text: &[u8], at: usize) {
    let it = nodes[at];
    assert_eq!(rt; it.value.kind == TOML_TABLE, node.is_table());
    assert_eq!(rt; it.value.kind == TOML_ARRAY, node.is_array());
    if let Some(wanted) = node.as_str() {
        let place = it.value.text;
        assert_eq!(rt; &text[place.offset..][..place.length], wanted.as_bytes());
    }
    if let Some(wanted) = node.as_i64() {
        assert_eq!(rt; it.value.integer, wanted);
    }
    let mut next = it.first;
    for index in 0..node.len() {
        if let Some(below) = node.at(index) {
            assert!(rt; next > at && next < nodes.len());
            assert_eq!(rt; nodes[next].parent, at);
            let name = nodes[next].name;
            assert_eq!(rt; &text[name.offset..][..name.length], below.name().as_bytes());
            let found = find_entry(text, nodes, at, below.name().as_bytes());
            assert_eq!(rt; found, if node.is_table() { Some(next) } else { None });
            same(rt, below, nodes, text, next);
            next = nodes[next].next;
        }
    }
    assert_eq!(rt; next, 0);
    assert_eq!(rt; find_entry(text, nodes, at, b"no"), None);
}

fn look_at(rt: &impl Abort, tree: &Tree<'_, Global>) {
    let size = size_of(tree);
    let mut text = [0; 64];
    let mut nodes = [NO_NODE; 32];
    assert!(rt; size.text <= 64 && size.nodes <= 32);
    let (bytes, room) = (&mut text[..size.text], &mut nodes[..size.nodes]);
    assert!(rt; write_nodes(tree, size, bytes, room));
    same(rt, tree.root(), &nodes[..size.nodes], &text[..size.text], 0);
}

#[test]
fn write_nodes_writes_those_of_the_tree(rt: HostRuntime) {
    for text in TEXTS {
        let mut document = Document::new(rt.alloc());
        match from_text(rt.alloc(), 5, text, &mut document) {
            Ok(tree) => look_at(&rt, &tree),
            Err(_) => assert!(rt; false),
        }
    }
}

#[test]
fn size_of_says_what_is_wanted(rt: HostRuntime) {
    let mut document = Document::new(rt.alloc());
    let Ok(tree) = from_text(rt.alloc(), 1, "ab = 'cde'\n", &mut document) else {
        return;
    };
    let size = size_of(&tree);
    assert!(rt; size.nodes == 2 && size.text == 5);
    let mut text = [1; 5];
    let mut nodes = [NO_NODE; 2];
    assert!(rt; !write_nodes(&tree, size, &mut text[..4], nodes.as_mut_slice()));
    assert!(rt; !write_nodes(&tree, size, text.as_mut_slice(), &mut nodes[..1]));
    assert!(rt; text == [1; 5] && nodes[0] == NO_NODE);
    assert!(rt; write_nodes(&tree, size, text.as_mut_slice(), nodes.as_mut_slice()));
    assert_eq!(rt; text.as_slice(), b"cdeab".as_slice());
}
