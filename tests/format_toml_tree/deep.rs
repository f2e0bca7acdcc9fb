//! Large and deep documents.
use super::lines::Wrong;
use format_toml_tree::build::{TreeError, build};
use format_toml_tree::roles::Reason;
use format_toml_tree::value::{Item, Key, Value};
use std::alloc::Global;

/// A key of `depth` names, all equal but the last.
fn key_of(alloc: Global, depth: usize, last: usize) -> Result<Key<Global>, Wrong> {
    let mut names = Vec::new(alloc);
    for _ in 1..depth {
        names.push(String::from_str(alloc, "a")?)?;
    }
    names.push(format!(in alloc; "{last}")?)?;
    Ok(Key { names })
}

/// Twenty thousand keys.
fn many_keys(alloc: Global) -> Result<Vec<Item<Global>>, Wrong> {
    let mut lines = Vec::new(alloc);
    for k in 0..20_000usize {
        lines.push(Item::Entry(key_of(alloc, 1, k)?, Value::Integer(1)))?;
    }
    Ok(lines)
}

/// Twenty thousand headers with dots.
fn many_headers(alloc: Global) -> Result<Vec<Item<Global>>, Wrong> {
    let mut lines = Vec::new(alloc);
    for k in 0..20_000usize {
        lines.push(Item::Table(key_of(alloc, 4, k)?))?;
    }
    Ok(lines)
}

/// A header of this number of names.
fn deep_header(alloc: Global, depth: usize) -> Result<Vec<Item<Global>>, Wrong> {
    let mut lines = Vec::new(alloc);
    lines.push(Item::Table(key_of(alloc, depth, 0)?))?;
    Ok(lines)
}

#[test]
fn build_takes_many_keys(rt: HostRuntime) {
    match many_keys(rt.alloc()) {
        Ok(lines) => match build(rt.alloc(), 0, lines.as_slice()) {
            Ok(tree) => {
                assert_eq!(rt; tree.root().len(), 20_000);
                assert!(rt; tree.root().get("19999").is_some_and(|n| n.as_i64() == Some(1)));
            }
            Err(_) => assert!(rt; false),
        },
        Err(_) => assert!(rt; false),
    }
}

#[test]
fn build_takes_many_headers(rt: HostRuntime) {
    match many_headers(rt.alloc()) {
        Ok(lines) => match build(rt.alloc(), 4, lines.as_slice()) {
            Ok(tree) => {
                let node = tree.root().get_path(&["a", "a", "a"]);
                assert_eq!(rt; node.map(|n| n.len()), Some(20_000));
            }
            Err(_) => assert!(rt; false),
        },
        Err(_) => assert!(rt; false),
    }
}

#[test]
fn build_takes_deep_headers(rt: HostRuntime) {
    match deep_header(rt.alloc(), 20_000) {
        Ok(lines) => match build(rt.alloc(), 20_000, lines.as_slice()) {
            Ok(tree) => {
                let mut node = tree.root();
                for _ in 1..20_000usize {
                    match node.get("a") {
                        Some(below) => node = below,
                        None => assert!(rt; false),
                    }
                }
                assert!(rt; node.get("0").is_some_and(|n| n.is_table() && n.is_empty()));
            }
            Err(_) => assert!(rt; false),
        },
        Err(_) => assert!(rt; false),
    }
}

#[test]
fn build_rejects_deeper_headers(rt: HostRuntime) {
    match deep_header(rt.alloc(), 80_000) {
        Ok(lines) => {
            let fault = build(rt.alloc(), 79_999, lines.as_slice()).err();
            let want = TreeError::Invalid { statement: 0, why: Reason::TooDeep };
            assert!(rt; fault.is_some_and(|fault| fault == want));
        }
        Err(_) => assert!(rt; false),
    }
}
