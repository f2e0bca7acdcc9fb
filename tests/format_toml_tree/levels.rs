//! Documents at the depth of their deepest table or array, and above it.
use super::lines::lines_of;
use format_toml_tree::build::{TreeError, build};
use format_toml_tree::roles::Reason;

/// A document, its first line with the deepest table or array, counted from 0, and the depth of
/// that: the number of names and indices of its path, counted by hand.
const ROWS: &[(&str, usize, usize)] = &[
    ("[a]", 0, 1),
    ("[a.b.c]", 0, 3),
    ("[a]\n[a.b]\n[c]\n[c.d.e]", 3, 3),
    ("[a.b]\n[a]\n[c.d]", 0, 2),
    ("[[a]]", 0, 2),
    ("[[a.b]]", 0, 3),
    ("[[a]]\n[[a]]\n[a.b]", 2, 3),
    ("[[a]]\n[[a.b]]", 1, 4),
    ("[[a]]\n[[a.b]]\n[a.b.c]", 2, 5),
    ("a.b = 1", 0, 1),
    ("a.b.c = 1", 0, 2),
    ("[a]\nb.c = 1", 1, 2),
    ("[[a]]\nb.c = 1", 1, 3),
    ("a = []", 0, 1),
    ("a = { }", 0, 1),
    ("a = [1, [ ]]", 0, 2),
    ("a = [[1], { }]", 0, 2),
    ("a = [{ b = { } }]", 0, 3),
    ("a = { b.c = 1 }", 0, 2),
    ("a = { b.c.d = 1 }", 0, 3),
    ("a = { b.c = [2] }", 0, 3),
    ("a.b.c = []", 0, 3),
    ("[a]\nb = 1\nc = [2]", 2, 2),
    ("[[a]]\nb = [1]", 1, 3),
    ("[a.b]\nc = { d.e = [1] }", 1, 5),
];

#[test]
fn build_takes_what_is_as_deep_as_the_level(rt: HostRuntime) {
    for (text, line, depth) in ROWS {
        match lines_of(rt.alloc(), text) {
            Ok(lines) => {
                assert!(rt; build(rt.alloc(), *depth, lines.as_slice()).is_ok(), "{text:?}");
                let fault = build(rt.alloc(), *depth - 1, lines.as_slice()).err();
                let want = TreeError::Invalid { statement: *line, why: Reason::TooDeep };
                assert!(rt; fault.is_some_and(|fault| fault == want), "{text:?}");
            }
            Err(_) => assert!(rt; false, "{text:?}"),
        }
    }
}

/// The reason of the standard comes first.
#[test]
fn build_names_the_reason_of_the_standard(rt: HostRuntime) {
    match lines_of(rt.alloc(), "a = { b.c = 1, d = 2, d = 3 }") {
        Ok(lines) => {
            let fault = build(rt.alloc(), 1, lines.as_slice()).err();
            let want = TreeError::Invalid { statement: 0, why: Reason::Defined };
            assert!(rt; fault.is_some_and(|fault| fault == want));
        }
        Err(_) => assert!(rt; false),
    }
}
