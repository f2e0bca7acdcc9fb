//! The memory that a document keeps.
use format_toml_document::{Document, from_text};
use std::alloc::{AllocError, Global};
use test_support::counting::Counting;

const WORDS: [&str; 8] = [
    "alpha", "nightly", "of", "release", "gamma", "cache", "network", "by",
];

/// Returns that many words, which depend on a number.
fn words(alloc: Global, seed: usize, count: usize) -> Result<String<Global>, AllocError> {
    let mut text = String::new(alloc);
    for k in 0..count {
        if k != 0 {
            text.push_str(" ")?;
        }
        text.push_str(WORDS[(seed / 3 + k * 5) % 8])?;
    }
    Ok(text)
}

/// Appends a table with values of each kind and an element of an array of tables, as
/// `bindings/beside/inputs.py` does.
fn push_unit(alloc: Global, k: usize, text: &mut String<Global>) -> Result<(), AllocError> {
    let one = WORDS[k % 8];
    let six = words(alloc, k, 6)?;
    let three = words(alloc, k + 1, 3)?;
    let five = words(alloc, k + 2, 5)?;
    text.push_str(format!(in alloc; "# {six}\n[servers.unit-{k}]\nname = \"{three}\"\n")?.as_str())?;
    let port = 1024 + k * 37 % 60000;
    text.push_str(
        format!(in alloc; "path = 'C:\\data\\{one}'\nport = {port}\nenabled = true\n")?.as_str(),
    )?;
    text.push_str(format!(in alloc; "ratio = {}.125\nsince = 2024-07-15\n", k % 125)?.as_str())?;
    text.push_str("hosts = [")?;
    for n in 0..k % 4 + 1 {
        let mark = if n == 0 { "" } else { ", " };
        let word = WORDS[(k + n) % 8];
        text.push_str(format!(in alloc; "{mark}\"{word}.example.org\"")?.as_str())?;
    }
    text.push_str(
        format!(in alloc; "]\nlimits = {{ soft = {}, hard = 1_000 }}\n\n", k % 100)?.as_str(),
    )?;
    text.push_str(
        format!(in alloc; "[[jobs]]\nid = {k}\nnote = \"{five} \\\"{one}\\\"\"\n\n")?.as_str(),
    )
}

/// The document of the comparison with other parsers, with this number of units.
fn benchmark(alloc: Global, units: usize) -> Result<String<Global>, AllocError> {
    let mut text = String::from_str(
        alloc,
        "title = \"Settings\"\ncreated = 2024-05-27T07:32:00Z\n\n",
    )?;
    for k in 0..units {
        push_unit(alloc, k, &mut text)?;
    }
    Ok(text)
}

/// Returns how many bytes a document of a text and its tree keep, if there is a tree.
fn kept(alloc: Global, text: &str) -> Option<usize> {
    let heap = Counting::new(alloc);
    let mut document = Document::new(&heap);
    match from_text(&heap, 8, text, &mut document) {
        Ok(_tree) => Some(heap.held()),
        Err(_) => None,
    }
}

/// Each list has the allocator too, which takes 8 bytes, as it is borrowed. With `Global`, which
/// takes none, it is a sixth less.
#[test]
fn a_document_keeps_little(rt: HostRuntime) {
    let text = benchmark(rt.alloc(), 30).unwrap();
    let held = kept(rt.alloc(), text.as_str()).unwrap_or(0);
    assert!(rt; 0 < held && held <= 19 * text.len(), "{} bytes keep {held}", text.len());
}

#[test]
fn blank_lines_and_comments_keep_nothing(rt: HostRuntime) {
    let none = kept(rt.alloc(), "");
    assert!(rt; none.is_some());
    for line in ["\n", "# c\n", " \t\r\n"] {
        let mut text = String::new(rt.alloc());
        for _ in 0..1000 {
            assert!(rt; text.push_str(line).is_ok());
        }
        assert_eq!(rt; kept(rt.alloc(), text.as_str()), none, "{line:?}");
    }
}
