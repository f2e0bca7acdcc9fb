//! Documents that have a tree, and its contents.
use super::lines::lines_of;
use format_toml_tree::build::build;
use format_toml_tree::node::Node;
use std::alloc::Global;

/// A document, and the integers that it holds, each at its path: names and places of elements. Most
/// are of toml.io/en/v1.0.0 (Keys to Array of Tables) with integers for strings. The paths are those
/// that Python's `tomllib` has, in its order.
const ROWS: &[(&str, &[(&str, i64)])] = &[
    (
        "name = 1",
        &[("/name", 1)],
    ),
    (
        "a = 1\nb = 2",
        &[("/a", 1), ("/b", 2)],
    ),
    (
        "physical.color = 1\nphysical.shape = 2\nsite.google = 3",
        &[("/physical/color", 1), ("/physical/shape", 2), ("/site/google", 3)],
    ),
    (
        "fruit.apple.smooth = 1\nfruit.orange = 2",
        &[("/fruit/apple/smooth", 1), ("/fruit/orange", 2)],
    ),
    (
        "apple.type = 1\norange.type = 2\napple.skin = 3\norange.skin = 4\napple.color = 5\norange.color = 6",
        &[("/apple/type", 1), ("/apple/skin", 3), ("/apple/color", 5), ("/orange/type", 2), ("/orange/skin", 4), ("/orange/color", 6)],
    ),
    (
        "3.14159 = 1",
        &[("/3/14159", 1)],
    ),
    (
        "[table]",
        &[],
    ),
    (
        "[table1]\nkey1 = 1\nkey2 = 2\n\n[table2]\nkey1 = 3\nkey2 = 4",
        &[("/table1/key1", 1), ("/table1/key2", 2), ("/table2/key1", 3), ("/table2/key2", 4)],
    ),
    (
        "[dog.tater]\ntype.name = 1",
        &[("/dog/tater/type/name", 1)],
    ),
    (
        "[a.b.c]\n[d.e.f]\n[g.h.i]",
        &[],
    ),
    (
        "# [x] you\n# [x.y] do not\n[x.y.z.w] # for this\n\n[x] # defining a super table afterward is ok",
        &[],
    ),
    (
        "[fruit.apple]\n[animal]\n[fruit.orange]",
        &[],
    ),
    (
        "[fruit.apple]\n[fruit.orange]\n[animal]",
        &[],
    ),
    (
        "name = 1\nbreed = 2\n[owner]\nname = 3\nmember = 4",
        &[("/name", 1), ("/breed", 2), ("/owner/name", 3), ("/owner/member", 4)],
    ),
    (
        "fruit.apple.color = 1\nfruit.apple.taste.sweet = 2",
        &[("/fruit/apple/color", 1), ("/fruit/apple/taste/sweet", 2)],
    ),
    (
        "[fruit]\napple.color = 1\napple.taste.sweet = 2\n[fruit.apple.texture]\nsmooth = 3",
        &[("/fruit/apple/color", 1), ("/fruit/apple/taste/sweet", 2), ("/fruit/apple/texture/smooth", 3)],
    ),
    (
        "name = { first = 1, last = 2 }\npoint = { x = 1, y = 2 }\nanimal = { type.name = 3 }",
        &[("/name/first", 1), ("/name/last", 2), ("/point/x", 1), ("/point/y", 2), ("/animal/type/name", 3)],
    ),
    (
        "[name]\nfirst = 1\nlast = 2\n[point]\nx = 1\ny = 2\n[animal]\ntype.name = 3",
        &[("/name/first", 1), ("/name/last", 2), ("/point/x", 1), ("/point/y", 2), ("/animal/type/name", 3)],
    ),
    (
        "[product]\ntype = { name = 1 }",
        &[("/product/type/name", 1)],
    ),
    (
        "a = { }",
        &[],
    ),
    (
        "a = { b = { c = { d = 1 } }, e.f.g = 2, e.f.h = 3 }",
        &[("/a/b/c/d", 1), ("/a/e/f/g", 2), ("/a/e/f/h", 3)],
    ),
    (
        "a = [ 1, 2, 3 ]",
        &[("/a/0", 1), ("/a/1", 2), ("/a/2", 3)],
    ),
    (
        "a = [ [ 1, 2 ], [ 3, 4, 5 ] ]",
        &[("/a/0/0", 1), ("/a/0/1", 2), ("/a/1/0", 3), ("/a/1/1", 4), ("/a/1/2", 5)],
    ),
    (
        "a = [ 1, 2, [ 3 ], { b = 4 } ]",
        &[("/a/0", 1), ("/a/1", 2), ("/a/2/0", 3), ("/a/3/b", 4)],
    ),
    (
        "points = [ { x = 1, y = 2, z = 3 }, { x = 7, y = 8, z = 9 }, { x = 2, y = 4, z = 8 } ]",
        &[("/points/0/x", 1), ("/points/0/y", 2), ("/points/0/z", 3), ("/points/1/x", 7), ("/points/1/y", 8), ("/points/1/z", 9), ("/points/2/x", 2), ("/points/2/y", 4), ("/points/2/z", 8)],
    ),
    (
        "a = []\nb = [ { }, { c = 1 }, { c = 2 } ]",
        &[("/b/1/c", 1), ("/b/2/c", 2)],
    ),
    (
        "a = [ { b.c = 1, b.d = 2 }, { b.c = 3 } ]",
        &[("/a/0/b/c", 1), ("/a/0/b/d", 2), ("/a/1/b/c", 3)],
    ),
    (
        "[[products]]\nname = 1\nsku = 2\n\n[[products]]  # empty\n\n[[products]]\nname = 3\nsku = 4\ncolor = 5",
        &[("/products/0/name", 1), ("/products/0/sku", 2), ("/products/2/name", 3), ("/products/2/sku", 4), ("/products/2/color", 5)],
    ),
    (
        "[[fruits]]\nname = 1\n\n[fruits.physical]\ncolor = 2\nshape = 3\n\n[[fruits.varieties]]\nname = 4\n\n[[fruits.varieties]]\nname = 5\n\n[[fruits]]\nname = 6\n\n[[fruits.varieties]]\nname = 7",
        &[("/fruits/0/name", 1), ("/fruits/0/physical/color", 2), ("/fruits/0/physical/shape", 3), ("/fruits/0/varieties/0/name", 4), ("/fruits/0/varieties/1/name", 5), ("/fruits/1/name", 6), ("/fruits/1/varieties/0/name", 7)],
    ),
    (
        "[[a.b]]\n[[a.b]]\n[a.b.c]\nd = 1\n[[a.b]]\n[a.b.c]\nd = 2",
        &[("/a/b/1/c/d", 1), ("/a/b/2/c/d", 2)],
    ),
    (
        "[[a]]\n[[a.b]]\n[a.b.c.d]\ne = 1\n[[a.b]]\n[a.b.c.d]\ne = 2",
        &[("/a/0/b/0/c/d/e", 1), ("/a/0/b/1/c/d/e", 2)],
    ),
    (
        "[[a.b]]\nx = 1\n[a]\ny = 2",
        &[("/a/b/0/x", 1), ("/a/y", 2)],
    ),
    (
        "[a.b.c]\nx = 1\n[a]\nb.d = 2",
        &[("/a/b/c/x", 1), ("/a/b/d", 2)],
    ),
    (
        "[a.b.c]\n[a]\nx = 1\n[a.b]\ny = 2",
        &[("/a/b/y", 2), ("/a/x", 1)],
    ),
    (
        "[a.b]\n[a]\nc.d = 1\n[a.c.e]",
        &[("/a/c/d", 1)],
    ),
    (
        "[[a]]\nb.c = 1\n[[a]]\nb.c = 2\n[a.b.d]",
        &[("/a/0/b/c", 1), ("/a/1/b/c", 2)],
    ),
    (
        "[a]\n[a.b]\n[a.b.c]\n[b]\n[b.a]",
        &[],
    ),
    (
        "",
        &[],
    ),
    (
        "\n\n# c",
        &[],
    ),
    (
        "[a.a.a]\na.a = 1",
        &[("/a/a/a/a/a", 1)],
    ),
    (
        "a.a.a = 1\na.b.a = 2\nb.a = 3",
        &[("/a/a/a", 1), ("/a/b/a", 2), ("/b/a", 3)],
    ),
];

/// Returns the node at a path, which has a slash before each name or index.
fn at<'d, 't>(root: Node<'d, 't, Global>, path: &str) -> Option<Node<'d, 't, Global>> {
    let mut node = root;
    for step in path.split('/') {
        if step.is_empty() {
            continue;
        }
        node = if node.is_array() {
            node.at(step.parse::<usize>().ok()?)?
        } else {
            node.get(step)?
        };
    }
    Some(node)
}

/// How many integers are below a node.
fn count(node: Node<'_, '_, Global>, depth: usize) -> usize {
    let mut sum = 0usize;
    if node.as_i64().is_some() {
        sum = 1;
    }
    if depth > 0 {
        for index in 0..node.len() {
            if let Some(below) = node.at(index) {
                sum = sum.saturating_add(count(below, depth - 1));
            }
        }
    }
    sum
}

#[test]
fn build_holds_what_lines_say(rt: HostRuntime) {
    for (text, want) in ROWS {
        match lines_of(rt.alloc(), text) {
            Ok(lines) => match build(rt.alloc(), 9, lines.as_slice()) {
                Ok(tree) => {
                    for (path, number) in want.iter() {
                        match at(tree.root(), path) {
                            Some(node) => {
                                assert_eq!(rt; node.as_i64(), Some(*number), "{text:?}, {path:?}");
                            }
                            None => assert!(rt; false, "{text:?}, {path:?}"),
                        }
                    }
                    assert_eq!(rt; count(tree.root(), 9), want.len(), "{text:?}");
                }
                Err(fault) => assert!(rt; false, "{text:?}: {fault:?}"),
            },
            Err(_) => assert!(rt; false, "{text:?}"),
        }
    }
}

/// A document, a path, and the names of the entries there, in the order in which they were first
/// named, by the words of the standard on each statement.
const ORDER: &[(&str, &str, &[&str])] = &[
    ("b = 1\na = 2\nc = 3", "", &["b", "a", "c"]),
    ("[b]\n[a.d]\n[c]\n[b.x]\n[a]\ne = 1", "", &["b", "a", "c"]),
    ("[b]\n[a.d]\n[c]\n[b.x]\n[a]\ne = 1", "/a", &["d", "e"]),
    ("a.c = 1\nb = 2\na.b = 3", "/a", &["c", "b"]),
    ("x = { c = 1, a.b = 2, b = 3, a.a = 4 }", "/x", &["c", "a", "b"]),
    ("[[z.y]]\nb = 1\na = 2\n[[z.y]]\na = 3", "/z/y/0", &["b", "a"]),
];

#[test]
fn at_is_in_the_order_of_names(rt: HostRuntime) {
    for (text, path, names) in ORDER {
        match lines_of(rt.alloc(), text) {
            Ok(lines) => match build(rt.alloc(), 9, lines.as_slice()) {
                Ok(tree) => match at(tree.root(), path) {
                    Some(node) => {
                        assert_eq!(rt; node.len(), names.len(), "{text:?}");
                        for (index, name) in names.iter().enumerate() {
                            match node.at(index) {
                                Some(below) => assert_eq!(rt; below.name(), *name, "{text:?}"),
                                None => assert!(rt; false, "{text:?}"),
                            }
                        }
                        assert!(rt; node.at(names.len()).is_none(), "{text:?}");
                    }
                    None => assert!(rt; false, "{text:?}"),
                },
                Err(_) => assert!(rt; false, "{text:?}"),
            },
            Err(_) => assert!(rt; false, "{text:?}"),
        }
    }
}

#[test]
fn get_finds_nothing_else(rt: HostRuntime) {
    match lines_of(rt.alloc(), "a.b = 1\nc = [2]\n[[d]]\ne = { }\n[f.g]") {
        Ok(lines) => match build(rt.alloc(), 9, lines.as_slice()) {
            Ok(tree) => {
                let root = tree.root();
                assert!(rt; root.is_table() && !root.is_array() && root.value().is_none());
                assert!(rt; root.get("b").is_none() && root.get("").is_none());
                assert!(rt; root.get_path(&["a", "b"]).and_then(|n| n.as_i64()) == Some(1));
                assert!(rt; root.get_path(&["a", "b", "c"]).is_none());
                assert!(rt; root.get("c").is_some_and(|n| n.is_array() && n.len() == 1));
                assert!(rt; root.get("d").is_some_and(|n| n.is_array() && n.get("e").is_none()));
                assert!(rt; root.get("d").and_then(|n| n.at(0)).is_some_and(|n| n.is_table()));
                assert!(rt; root.get_path(&["f", "g"]).is_some_and(|n| n.is_empty()));
            }
            Err(_) => assert!(rt; false),
        },
        Err(_) => assert!(rt; false),
    }
}
