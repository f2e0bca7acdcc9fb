//! The cases of toml-test 1.5 that are named in these files, each written anew for its name: the
//! valid ones are accepted, the others rejected. Python's `tomllib` accepts and rejects the same.
use crate::invalid_strings::STRINGS;
use crate::{invalid_tables, invalid_values, valid_tables, valid_values};
use format_toml_document::{Document, TomlError, SAFE_DEPTH, from_bytes, from_text};
use std::alloc::Global;

/// Returns whether a text is accepted, or `None` if it is neither accepted nor rejected.
fn is_read(alloc: Global, text: &str) -> Option<bool> {
    let mut document = Document::new(alloc);
    match from_text(alloc, SAFE_DEPTH, text, &mut document) {
        Ok(_) => Some(true),
        Err(TomlError::Unexpected { .. } | TomlError::Invalid { .. }) => Some(false),
        Err(_) => None,
    }
}

/// The name of the first case for which it is not so that it is read.
fn first_other<'r>(alloc: Global, rows: &[(&'r str, &'r str)], read: bool) -> &'r str {
    for (name, text) in rows {
        if is_read(alloc, text) != Some(read) {
            return name;
        }
    }
    ""
}

#[test]
fn from_text_reads_what_is_valid(rt: HostRuntime) {
    for rows in [valid_tables::TABLES, valid_values::VALUES] {
        assert_eq!(rt; first_other(rt.alloc(), rows, true), "");
    }
}

#[test]
fn from_text_refuses_what_is_invalid(rt: HostRuntime) {
    for rows in [invalid_tables::TABLES, invalid_values::VALUES, STRINGS] {
        assert_eq!(rt; first_other(rt.alloc(), rows, false), "");
    }
}

/// Lines and columns by hand.
#[test]
fn from_bytes_refuses_what_is_no_utf8(rt: HostRuntime) {
    let rows = [
        // encoding/bad-utf8-in-comment
        (b"# \xc3\n".as_slice(), 1, 3),
        // encoding/bad-utf8-in-string
        (b"# The following line\n\nbad = \"\xc3\x28\"\n".as_slice(), 3, 8),
        // encoding/bad-codepoint
        (b"# Invalid codepoint U+D800 : \xed\xa0\x80\n".as_slice(), 1, 30),
        // encoding/utf16-bom
        (b"\xfe\xff\0#\0 \0x\n".as_slice(), 1, 1),
    ];
    for (bytes, line, column) in rows {
        let mut document = Document::new(rt.alloc());
        match from_bytes(rt.alloc(), SAFE_DEPTH, bytes, &mut document) {
            Err(TomlError::NotUtf8 { at }) => {
                assert_eq!(rt; (at.line, at.column), (line, column));
            }
            _ => assert!(rt; false),
        }
    }
}
