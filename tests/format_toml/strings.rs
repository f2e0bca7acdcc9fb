//! Strings over lines, as values.
use format_toml::lines::parse_lines;
use format_toml_tree::value::{Item, Value};
use std::alloc::Global;
use std::process::Abort;

/// A string over lines of toml.io/en/v1.0.0, of the suite toml-test by its name there, or one like
/// these; and what Python's `tomllib` reads.
const ROWS: &[(&str, &str)] = &[
    // String: Roses
    ("\"\"\"\nRoses are red\nViolets are blue\"\"\"", "Roses are red\nViolets are blue"),
    // String: str2
    (
        "\"\"\"\nThe quick brown \\\n\n\n  fox jumps over \\\n    the lazy dog.\"\"\"",
        "The quick brown fox jumps over the lazy dog.",
    ),
    // String: str3
    (
        "\"\"\"\\\n       The quick brown \\\n       fox jumps over \\\n       the lazy dog.\\\n       \"\"\"",
        "The quick brown fox jumps over the lazy dog.",
    ),
    // String: str4
    (
        "\"\"\"Here are two quotation marks: \"\". Simple enough.\"\"\"",
        "Here are two quotation marks: \"\". Simple enough.",
    ),
    // String: str5
    (
        "\"\"\"Here are three quotation marks: \"\"\\\".\"\"\"",
        "Here are three quotation marks: \"\"\".",
    ),
    // String: str6
    (
        "\"\"\"Here are fifteen quotation marks: \"\"\\\"\"\"\\\"\"\"\\\"\"\"\\\"\"\"\\\".\"\"\"",
        "Here are fifteen quotation marks: \"\"\"\"\"\"\"\"\"\"\"\"\"\"\".",
    ),
    // String: str7
    (
        "\"\"\"\"This,\" she said, \"is just a pointless statement.\"\"\"\"",
        "\"This,\" she said, \"is just a pointless statement.\"",
    ),
    // String: regex2
    ("'''I [dw]on't need \\d{2} apples'''", "I [dw]on't need \\d{2} apples"),
    // String: lines
    (
        "'''\nThe first newline is\ntrimmed in raw strings.\n   All other whitespace\n   is preserved.\n'''",
        "The first newline is\ntrimmed in raw strings.\n   All other whitespace\n   is preserved.\n",
    ),
    // String: quot15
    (
        "'''Here are fifteen quotation marks: \"\"\"\"\"\"\"\"\"\"\"\"\"\"\"'''",
        "Here are fifteen quotation marks: \"\"\"\"\"\"\"\"\"\"\"\"\"\"\"",
    ),
    // String: str
    ("''''That,' she said, 'is still pointless.''''", "'That,' she said, 'is still pointless.'"),
    // multiline-empty
    ("\"\"\"\"\"\"", ""),
    ("\"\"\"\n\"\"\"", ""),
    ("\"\"\"\\\n    \"\"\"", ""),
    ("\"\"\"\\\n    \\\n    \\\n    \"\"\"", ""),
    // raw-multiline
    ("''''''", ""),
    ("'''\n'''", ""),
    (
        "'''\n\nThis string\nhas ' a quote character\nand more than\none newline\nin it.'''",
        "\nThis string\nhas ' a quote character\nand more than\none newline\nin it.",
    ),
    // multiline-quotes
    ("''''one quote''''", "'one quote'"),
    ("'''''two quotes'''''", "''two quotes''"),
    ("''' 'one quote' '''", " 'one quote' "),
    ("\"\"\"\"one quote\"\"\"\"", "\"one quote\""),
    ("\"\"\"\"\"two quotes\"\"\"\"\"", "\"\"two quotes\"\""),
    ("\"\"\" \"\"two quotes\"\" \"\"\"", " \"\"two quotes\"\" "),
    ("\"\"\"aaa'''bbb\"\"\"", "aaa'''bbb"),
    ("'''aaa\"\"\"bbb'''", "aaa\"\"\"bbb"),
    ("\"\"\"lol\\\"\"\"\"\"\"", "lol\"\"\""),
    // five-quotes
    ("\"\"\"\nClosing with five quotes\n\"\"\"\"\"", "Closing with five quotes\n\"\""),
    // four-quotes
    ("\"\"\"\nClosing with four quotes\n\"\"\"\"", "Closing with four quotes\n\""),
    // multiline-escaped-crlf
    ("\"\"\"\\\r\nThe quick brown \\\r\n\r\n fox\"\"\"", "The quick brown fox"),
    // crlf within
    ("\"\"\"\r\na\r\nb\"\"\"", "a\nb"),
    ("'''\r\na\r\nb'''", "a\nb"),
    ("'''a\r\n\r\n'''", "a\n\n"),
    // escape-tricky
    (
        "\"\"\"\\\\\\u00e9\\U0001d11e\\b\\t\\n\\f\\r\\\\n\"\"\"\"",
        "\\\u{e9}\u{1d11e}\u{8}\t\n\u{c}\r\\n\"",
    ),
    // ends-in-whitespace-escape
    ("\"\"\"\nheeee\ngeeee\\  \n\n      \"\"\"", "heeee\ngeeee"),
    // start-mb
    ("\"\"\"\u{e9}\"\"\"", "\u{e9}"),
    ("'''\u{1d11e}\t\u{20ac}'''", "\u{1d11e}\t\u{20ac}"),
    // trimmed once
    ("\"\"\"\n\n\"\"\"", "\n"),
    ("'''\n\na'''", "\na"),
    // not white
    ("\"\"\"\n \t\n\"\"\"", " \t\n"),
    // quotes next to escaped line endings
    ("\"\"\"\"\"\\\n \"\"a\"\"\"", "\"\"\"\"a"),
    ("\"\"\"a\"\"\\\n\"\"\"\"\"", "a\"\"\"\""),
    ("\"\"\"\\\n\"\\\n\"\"\"\"\"", "\"\"\""),
    // backslashes
    ("'''a\\\n b'''", "a\\\n b"),
    ("'''\\'''", "\\"),
    // only quotes
    ("\"\"\"\"\"\"\"", "\""),
    ("\"\"\"\"\"\"\"\"", "\"\""),
    ("'''''''", "'"),
    ("''''''''", "''"),
    // a comment mark
    ("\"\"\"# a\n[b]\"\"\"", "# a\n[b]"),
];

/// Texts that are not strings, and that `tomllib` rejects.
const NONE: &[&str] = &[
    // multiline-no-close
    "\"\"\"\nThis will fail\n",
    "'''\na",
    // multiline-no-close-2
    "\"\"\"a\\\"\"\"",
    // multiline-bad-escape-1
    "\"\"\"t\\a\"\"\"",
    // multiline-bad-escape-2
    "\"\"\"t\\ t\"\"\"",
    // multiline-bad-escape-3
    "\"\"\"t\\ \"\"\"",
    // multiline-bad-escape-4
    "\"\"\"t\\ x\n\"\"\"",
    // multiline-quotes-1
    "\"\"\"a\"\"\"b\"\"\"",
    "'''a'''b'''",
    // literal-multiline-quotes-2
    "'''''''15 apostrophes: ''''''''''''''''''",
    // basic-multiline-quotes
    "\"\"\"Here are three quotation marks: \"\"\".\"\"\"",
    // six quotes
    "\"\"\"a\"\"\"\"\"\"",
    "'''a''''''",
    "\"\"\"\"\"\"\"\"\"",
    "'''''''''",
    // bad-codepoint
    "\"\"\"\\UFFFFFFFF\"\"\"",
    "\"\"\"\\uD801\"\"\"",
    // control
    "\"\"\"null\u{0}\"\"\"",
    "\"\"\"\u{1f}\"\"\"",
    "\"\"\"\u{7f}\"\"\"",
    "'''\u{0}'''",
    "'''\u{7f}'''",
    "'''\u{1f}'''",
    // bare-cr
    "\"\"\"a\rb\"\"\"",
    "'''a\rb'''",
    "\"\"\"\\\r\"\"\"",
    "\"\"\"\r\"\"\"",
    "\"\"\"a\\\n\r b\"\"\"",
    // escaped quote
    "\"\"\"a\\\"\"\"",
    // basic-multiline-out-of-range-unicode-escape
    "\"\"\"\\U00110000\"\"\"",
    // incomplete escape
    "\"\"\"\\u00D\"\"\"",
];

/// The document `a = text`.
fn entry(alloc: Global, text: &str) -> String<Global> {
    format!(in alloc; "a = {text}").unwrap()
}

/// Whether the value of `a` is this text.
fn same_value(rt: &impl Abort, row: &str, item: &Item<Global>, want: &str) {
    match item {
        Item::Entry(_, Value::Text(text)) => assert_eq!(rt; text.as_str(), want, "{row:?}"),
        _ => assert!(rt; false, "{row:?}"),
    }
}

#[test]
fn strings_over_lines(rt: HostRuntime) {
    for (text, want) in ROWS {
        let document = entry(rt.alloc(), text);
        match parse_lines(rt.alloc(), 0, document.as_str()) {
            Ok(lines) => same_value(&rt, text, &lines[0], want),
            Err(_) => assert!(rt; false, "{text:?}"),
        }
    }
}

#[test]
fn what_is_no_string_over_lines(rt: HostRuntime) {
    for text in NONE {
        let document = entry(rt.alloc(), text);
        let lines = parse_lines(rt.alloc(), 0, document.as_str());
        assert!(rt; lines.is_err(), "{text:?}");
    }
}

#[test]
fn keys_stay_on_one_line(rt: HostRuntime) {
    for text in ["\"\"\"a\"\"\" = 1", "'''a''' = 1", "[\"\"\"a\"\"\"]", "a.'''b''' = 1"] {
        assert!(rt; parse_lines(rt.alloc(), 0, text).is_err(), "{text:?}");
    }
}
