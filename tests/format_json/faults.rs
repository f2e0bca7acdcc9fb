//! Errors: the position and the expected item, as displayed.
use format_json::{JsonError, Location, Value, from_bytes, from_text};
use std::alloc::Global;
use std::process::Abort;
use test_support::outcomes::Kind;
use test_support::refusing::{Refusing, refused_in_turn};

/// A text and its error message.
const ROWS: &[(&str, &str)] = &[
    ("", "line 1, column 1: unexpected end of input, expected a value"),
    (" \n ", "line 2, column 2: unexpected end of input, expected a value"),
    ("x", "line 1, column 1: expected a value"),
    ("\u{feff}1", "line 1, column 1: expected a value"),
    ("[", "line 1, column 2: unexpected end of input, expected a value or `]`"),
    ("[}", "line 1, column 2: expected a value or `]`"),
    ("[1", "line 1, column 3: unexpected end of input, expected a comma or `]`"),
    ("[1,\n 2 3]", "line 2, column 4: expected a comma or `]`"),
    ("[1,]", "line 1, column 4: expected a value"),
    ("{", "line 1, column 2: unexpected end of input, expected a string or `}`"),
    ("{1:2}", "line 1, column 2: expected a string or `}`"),
    ("{\"a\" 1}", "line 1, column 6: expected a colon"),
    ("{\"a\":}", "line 1, column 6: expected a value"),
    ("{\"a\":1 \"b\":2}", "line 1, column 8: expected a comma or `}`"),
    ("{\"a\":1,}", "line 1, column 8: expected a string"),
    ("{\"\u{e9}\": x}", "line 1, column 7: expected a value"),
    ("\"a", "line 1, column 3: unexpected end of input, expected a character of a string or its closing quote"),
    ("\"\u{1d11e}\n\"", "line 1, column 3: expected a character of a string or its closing quote"),
    ("\"\\x\"", "line 1, column 3: expected an escape"),
    ("\"\\u00g0\"", "line 1, column 6: expected a hexadecimal digit"),
    ("\"\\udc00\"", "line 1, column 5: expected the first half of a surrogate pair"),
    ("\"\\ud800\"", "line 1, column 8: expected the second half of a surrogate pair"),
    ("\"\\ud800\\u0041\"", "line 1, column 10: expected the second half of a surrogate pair"),
    ("-", "line 1, column 2: unexpected end of input, expected a digit"),
    ("[-]", "line 1, column 3: expected a digit"),
    ("1.", "line 1, column 3: unexpected end of input, expected a digit"),
    ("1e", "line 1, column 3: unexpected end of input, expected a digit or a sign"),
    ("1e+", "line 1, column 4: unexpected end of input, expected a digit"),
    ("01", "line 1, column 2: expected the end of the text"),
    ("[01]", "line 1, column 3: expected a comma or `]`"),
    ("1 2", "line 1, column 3: expected the end of the text"),
    ("[1]]", "line 1, column 4: expected the end of the text"),
    ("nul", "line 1, column 4: unexpected end of input, expected the letter `l`"),
    ("nulL", "line 1, column 4: expected the letter `l`"),
    ("trve", "line 1, column 3: expected the letter `u`"),
    ("[fals]", "line 1, column 6: expected the letter `e`"),
    ("[[[1]]]", "line 1, column 3: nested deeper than 2 levels"),
    ("{\"a\": [{}]}", "line 1, column 8: nested deeper than 2 levels"),
];

/// Returns the message of an error.
fn said(alloc: Global, fault: JsonError) -> Option<String<Global>> {
    format!(in alloc; "{fault}").ok()
}

#[test]
fn faults_of_texts(rt: HostRuntime) {
    for row in ROWS {
        let (text, want) = *row;
        match from_text(rt.alloc(), 2, text) {
            Ok(_) => assert!(rt; false, "{text:?}"),
            Err(fault) => match said(rt.alloc(), fault) {
                Some(said) => assert_eq!(rt; said.as_str(), want),
                None => assert!(rt; false),
            },
        }
        let whole = from_text(rt.alloc(), 2, text).err();
        assert!(rt; from_bytes(rt.alloc(), 2, text.as_bytes()).err() == whole, "{text:?}");
    }
}

#[test]
fn bytes_that_are_no_utf8(rt: HostRuntime) {
    let rows: [(&[u8], usize, &str); 7] = [
        (b"\"ab\xff\"", 3, "line 1, column 4: invalid UTF-8"),
        (b"[\n\"\xc3\"]", 3, "line 2, column 2: invalid UTF-8"),
        (b"[\n\"\xc3\xa9\xe9\n\"]", 5, "line 2, column 3: invalid UTF-8"),
        (b"[\"\xc3\xa9\",\n 2 3, \"\xff\"]", 10, "line 2, column 4: expected a comma or `]`"),
        (b"\"\xed\xa0\x80\"", 1, "line 1, column 2: invalid UTF-8"),
        (b"x\xff", 0, "line 1, column 1: expected a value"),
        (b"\xff", 0, "line 1, column 1: invalid UTF-8"),
    ];
    for row in rows {
        let (bytes, place, want) = row;
        match from_bytes(rt.alloc(), 2, bytes) {
            Ok(_) => assert!(rt; false),
            Err(fault) => {
                assert_eq!(rt; fault.location().map(|at| at.offset), Some(place));
                match said(rt.alloc(), fault) {
                    Some(said) => assert_eq!(rt; said.as_str(), want),
                    None => assert!(rt; false),
                }
            }
        }
    }
}

#[test]
fn the_place_of_a_fault(rt: HostRuntime) {
    let fault = from_text(rt.alloc(), 1, "[1,\r\n 2 \u{e9}]").err();
    let want = Location {
        offset: 8,
        line: 2,
        column: 4,
    };
    assert_eq!(rt; fault.and_then(|fault| fault.location()), Some(want));
}

/// The outcome of a read.
fn read(answer: Result<Value<&Refusing<Global>>, JsonError>) -> (Result<(), Kind>, usize) {
    match answer {
        Ok(_) => (Ok(()), 0),
        Err(JsonError::NoMemory) => (Err(Kind::Memory), 0),
        Err(_) => (Err(Kind::Backtrack), 0),
    }
}

#[test]
fn memory_that_is_refused(rt: HostRuntime) {
    let text = "[1, {\"a\": [\"b\"]}]";
    refused_in_turn(&rt, "from_text", rt.alloc(), |heap| read(from_text(heap, 3, text)), (Ok(()), 0));
    let broken = "[1, {\"a\": [\"b\"]";
    let wanted = (Err(Kind::Backtrack), 0);
    refused_in_turn(&rt, "from_text", rt.alloc(), |heap| read(from_text(heap, 3, broken)), wanted);
}
