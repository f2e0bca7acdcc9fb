//! Values over several lines.
use format_json_texts::value::Value;
use format_json_values::value::parse_value;
use format_json_writer::error::WriteError;
use format_json_writer::layout::Layout;
use format_json_writer::value::{to_text, to_text_with, write_value_with};
use std::alloc::Global;
use std::process::Abort;

/// Spaces for each level, a text, and as Python's `json.dumps` writes it with that `indent`.
const ROWS: &[(usize, &str, &str)] = &[
    (2, "null", "null"),
    (2, " 1.50 ", "1.50"),
    (2, "[ ]", "[]"),
    (2, "{ }", "{}"),
    (0, "[1,{\"a\":2}]", "[\n1,\n{\n\"a\": 2\n}\n]"),
    (1, "[1,2]", "[\n 1,\n 2\n]"),
    (2, "{\"a\":1,\"b\":[]}", "{\n  \"a\": 1,\n  \"b\": []\n}"),
    (4, "{\"a\":{\"b\":[true]}}",
     "{\n    \"a\": {\n        \"b\": [\n            true\n        ]\n    }\n}"),
    (2, "[[],[{}],{\"a\":[\"\\n\"]}]",
     "[\n  [],\n  [\n    {}\n  ],\n  {\n    \"a\": [\n      \"\\n\"\n    ]\n  }\n]"),
];

fn same(rt: &impl Abort, got: &str, want: &str) {
    assert_eq!(rt; got, want);
}

/// Whether the text of a value by a layout is this.
fn same_text(rt: &impl Abort, alloc: Global, layout: Layout, value: &Value<Global>, want: &str) {
    match to_text_with(alloc, 4, layout, value) {
        Ok(text) => same(rt, text.as_str(), want),
        Err(_) => assert!(rt; false, "{want:?}"),
    }
}

#[test]
fn to_text_with_lines(rt: HostRuntime) {
    for (step, text, want) in ROWS {
        match parse_value(rt.alloc(), 4, text) {
            Ok(value) => {
                let layout = Layout::Lines { now: 0, step: *step };
                same_text(&rt, rt.alloc(), layout, &value, want);
            }
            Err(_) => assert!(rt; false, "{text:?}"),
        }
    }
}

#[test]
fn to_text_with_no_lines(rt: HostRuntime) {
    for (_, text, want) in ROWS {
        match parse_value(rt.alloc(), 4, text) {
            Ok(value) => match to_text(rt.alloc(), 4, &value) {
                Ok(compact) => same_text(&rt, rt.alloc(), Layout::Compact, &value, compact.as_str()),
                Err(_) => assert!(rt; false, "{want:?}"),
            },
            Err(_) => assert!(rt; false, "{text:?}"),
        }
    }
}

/// A part of another text is indented as far as that.
#[test]
fn write_value_with_an_indent(rt: HostRuntime) {
    match parse_value(rt.alloc(), 2, "[1,[2]]") {
        Ok(value) => {
            let mut into = String::from_str(rt.alloc(), "  x: ").unwrap();
            let layout = Layout::Lines { now: 2, step: 3 };
            assert!(rt; write_value_with(2, layout, &value, &mut into).is_ok());
            same(&rt, into.as_str(), "  x: [\n     1,\n     [\n        2\n     ]\n  ]");
        }
        Err(_) => assert!(rt; false),
    }
}

/// After an error the previous contents remain. A line longer than `usize` can count is out of
/// memory.
#[test]
fn write_value_with_errors(rt: HostRuntime) {
    match parse_value(rt.alloc(), 2, "[[]]") {
        Ok(value) => {
            let mut into = String::from_str(rt.alloc(), "x = ").unwrap();
            let lines = Layout::Lines { now: 0, step: 2 };
            let deep = write_value_with(1, lines, &value, &mut into);
            assert!(rt; deep == Err(WriteError::Level));
            assert!(rt; into.as_str().starts_with("x = "));
            let long = Layout::Lines { now: 1, step: usize::MAX };
            let error = write_value_with(2, long, &value, &mut into);
            assert!(rt; error == Err(WriteError::Memory));
            assert!(rt; into.as_str().starts_with("x = "));
        }
        Err(_) => assert!(rt; false),
    }
}
