//! The messages of errors, and the contents of a tree.
use format_toml_document::{Document, Location, Reason, SAFE_DEPTH, TomlError};
use format_toml_document::{from_bytes, from_text};
use std::alloc::Global;

/// Returns the error message for a text, with a maximum nesting depth of 1, or an empty text if it
/// is a document.
fn said(rt: &HostRuntime, text: &str) -> String<Global> {
    let alloc = rt.alloc();
    let mut document = Document::new(alloc);
    match from_text(alloc, 1, text, &mut document) {
        Ok(_) => String::new(alloc),
        Err(fault) => format!(in alloc; "{fault}").unwrap(),
    }
}

/// Lines and columns by hand, the reasons by the standard.
#[test]
fn from_text_says_where_and_why(rt: HostRuntime) {
    let rows = [
        ("a = 1\n", ""),
        ("a = 1\n= 2\n", "line 2, column 1: expected a key or a table"),
        ("a = \"é\"\nb 2\n", "line 2, column 3: expected `.` or `=`"),
        ("a = [[1]]", "line 1, column 6: expected no deeper array or inline table"),
        ("\u{feff}a = 1", "line 1, column 1: expected no byte order mark"),
        ("a = 'é\nb = 1", "line 1, column 7: expected a character of a string or `'`"),
        (
            "a = [\n 1,\n x,\n]",
            "line 3, column 2: expected a value or `]`; unclosed from line 1, column 5",
        ),
        (
            "a = \"\"\"\nb\n",
            "line 3, column 1: expected a character of a string or `\"\"\"`; \
             unclosed from line 1, column 5",
        ),
        // A syntax error comes first.
        ("a = 1\na = 2\nb 3", "line 3, column 3: expected `.` or `=`"),
        ("a = 1\na = 2\n", "line 2, column 1: key is already defined"),
        ("a = [\n1,\n2]\n\n# b\n[a]\n", "line 6, column 1: key is already defined"),
        ("a = \"\"\"\n\n\"\"\"\r\n\na.b = 2", "line 5, column 1: key is not a table"),
        ("a = {}\n[a.b]", "line 2, column 1: table cannot be extended"),
        ("a = []\n  [[a]]", "line 2, column 1: key is not an array of tables"),
        // Depths are those of the tree, so of headers and dotted keys too.
        ("[a]\nb = 1\nc.d = 2", "line 3, column 1: table or array is nested too deep"),
        ("[[a]]\n", "line 1, column 1: table or array is nested too deep"),
        ("a = 1\n\n  [b.c]\n", "line 3, column 1: table or array is nested too deep"),
        ("a.b = []\nb", "line 2, column 2: expected `.` or `=`"),
    ];
    for (text, wanted) in rows {
        assert_eq!(rt; said(&rt, text).as_str(), wanted);
    }
}

/// A key of 4,000 names, and a header of as many: a tree of one table below the other.
#[test]
fn from_text_takes_no_deep_tree(rt: HostRuntime) {
    for (start, end) in [("", " = 1\n"), ("[", "]\n"), ("[[", "]]\n"), ("b = {", " = 1}\n")] {
        let mut text = String::from_str(rt.alloc(), start).unwrap();
        for _ in 1..4_000usize {
            text.push_str("a.").unwrap();
        }
        text.push_str("a").unwrap();
        text.push_str(end).unwrap();
        let mut document = Document::new(rt.alloc());
        match from_text(rt.alloc(), SAFE_DEPTH, text.as_str(), &mut document) {
            Ok(_) => assert!(rt; false),
            Err(fault) => {
                assert!(rt; matches!(fault, TomlError::Invalid { at, why: Reason::TooDeep } if at.offset == 0));
            }
        }
    }
}

#[test]
fn location_is_that_of_the_fault(rt: HostRuntime) {
    let mut document = Document::new(rt.alloc());
    match from_text(rt.alloc(), 1, "a = 1\n[a]\n", &mut document) {
        Err(fault) => {
            assert!(rt; matches!(fault, TomlError::Invalid { why: Reason::Defined, .. }));
            assert!(rt; matches!(fault.location(), Some(at) if at == Location { offset: 6, line: 2, column: 1 }));
        }
        Ok(_) => assert!(rt; false),
    }
    assert!(rt; TomlError::OutOfMemory.location().is_none());
    let said = format!(in rt.alloc(); "{}", TomlError::OutOfMemory);
    assert!(rt; matches!(said, Ok(said) if said.as_str() == "out of memory"));
}

#[test]
fn from_bytes_reads_what_from_text_does(rt: HostRuntime) {
    let mut document = Document::new(rt.alloc());
    match from_bytes(rt.alloc(), 2, b"a = '\xc3\xa9'\nb.c = [2]\n", &mut document) {
        Ok(tree) => {
            let root = tree.root();
            assert_eq!(rt; root.len(), 2);
            assert!(rt; matches!(root.get("a"), Some(node) if node.as_str() == Some("é")));
            let first = root.get_path(&["b", "c"]).and_then(|node| node.at(0));
            assert!(rt; matches!(first, Some(node) if node.as_i64() == Some(2)));
        }
        Err(_) => assert!(rt; false),
    }
}

/// The layout is that of Rust's `toml`, with the first words of `winnow`'s excerpts.
#[test]
fn shown_has_the_line_and_a_caret(rt: HostRuntime) {
    let rows = [
        (
            b"[server]\nport 80\n".as_slice(),
            "parse error at line 2, column 6\n  |\n2 | port 80\n  |      ^\nexpected `.` or `=`",
        ),
        (
            b"a 1".as_slice(),
            "parse error at line 1, column 3\n  |\n1 | a 1\n  |   ^\nexpected `.` or `=`",
        ),
        (
            b"a = [\n1]\na = 2".as_slice(),
            "parse error at line 3, column 1\n  |\n3 | a = 2\n  | ^\nkey is already defined",
        ),
        (
            b"a = '\xff'".as_slice(),
            "parse error at line 1, column 6\n  |\n1 | a = '\u{FFFD}'\n  |      ^\ninvalid UTF-8",
        ),
    ];
    for (bytes, wanted) in rows {
        let mut document = Document::new(rt.alloc());
        match from_bytes(rt.alloc(), 1, bytes, &mut document) {
            Err(fault) => {
                let shown = fault.shown(bytes);
                let said = format!(in rt.alloc(); "{shown}");
                assert!(rt; matches!(said, Ok(said) if said.as_str() == wanted));
            }
            Ok(_) => assert!(rt; false),
        }
    }
}
