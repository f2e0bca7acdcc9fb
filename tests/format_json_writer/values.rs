//! Values as text.
use format_json_texts::value::Value;
use format_json_values::value::parse_value;
use format_json_writer::error::WriteError;
use format_json_writer::value::{reads_back, to_text, write_value};
use std::alloc::Global;
use std::process::Abort;

/// The texts of section 13 of RFC 8259, and the texts that Python's `json` writes for them without
/// whitespace (`separators=(",", ":")`), where each number is unchanged.
const IMAGE: &str = r#"{
        "Image": {
            "Width":  800,
            "Height": 600,
            "Title":  "View from 15th Floor",
            "Thumbnail": {
                "Url":    "http://www.example.com/image/481989943",
                "Height": 125,
                "Width":  100
            },
            "Animated" : false,
            "IDs": [116, 943, 234, 38793]
          }
      }"#;

const IMAGE_COMPACT: &str = concat!(
    r#"{"Image":{"Width":800,"Height":600,"Title":"View from 15th Floor","Thumbnail":{"Url":"#,
    r#""http://www.example.com/image/481989943","Height":125,"Width":100},"Animated":false,"#,
    r#""IDs":[116,943,234,38793]}}"#
);

const PLACES: &str = r#"[
        {
           "precision": "zip",
           "Latitude":  37.7668,
           "Longitude": -122.3959,
           "Address":   "",
           "City":      "SAN FRANCISCO"
        },
        {
           "precision": "zip",
           "Latitude":  37.371991,
           "Longitude": -122.026020,
           "Address":   "",
           "City":      "SUNNYVALE"
        }
      ]"#;

const PLACES_COMPACT: &str = concat!(
    r#"[{"precision":"zip","Latitude":37.7668,"Longitude":-122.3959,"Address":"","City":"#,
    r#""SAN FRANCISCO"},{"precision":"zip","Latitude":37.371991,"Longitude":-122.026020,"#,
    r#""Address":"","City":"SUNNYVALE"}]"#
);

/// A maximum nesting depth, a JSON text, and the text of its value without whitespace.
const ROWS: &[(usize, &str, &str)] = &[
    (0, " null ", "null"),
    (0, "\ttrue", "true"),
    (0, "false\n", "false"),
    (0, " \r\n-0.50e+07 ", "-0.50e+07"),
    (0, "1E400", "1E400"),
    (0, r#" "" "#, r#""""#),
    (0, r#" "a \u0062 \/ \u000a \u001F \u20ac" "#, "\"a b / \\n \\u001f \u{20ac}\""),
    (0, r#" "\ud834\udd1e" "#, "\"\u{1d11e}\""),
    (1, " [ ] ", "[]"),
    (1, "[ null ]", "[null]"),
    (1, "[ null , true,\tfalse , 0 , \"\" ]", r#"[null,true,false,0,""]"#),
    (1, "{ }", "{}"),
    (1, r#" { "a" : 1 } "#, r#"{"a":1}"#),
    (1, r#"{ "b": 1, "a": "c", "": null }"#, r#"{"b":1,"a":"c","":null}"#),
    (1, r#"{"a": 1, "a": 2, "\u0022": 3}"#, r#"{"a":1,"a":2,"\"":3}"#),
    (2, "[[], {}, [1], {\"a\": 2}]", r#"[[],{},[1],{"a":2}]"#),
    (2, r#"{"a": [], "b": {}, "c": [1, 2]}"#, r#"{"a":[],"b":{},"c":[1,2]}"#),
    (3, r#"[ { "a" : [ "b" ] } , [ [ ] ] ]"#, r#"[{"a":["b"]},[[]]]"#),
    (9, "[[[[[[[[[0]]]]]]]]]", "[[[[[[[[[0]]]]]]]]]"),
    (3, IMAGE, IMAGE_COMPACT),
    (2, PLACES, PLACES_COMPACT),
];

fn same(rt: &impl Abort, row: &str, got: &str, want: &str) {
    assert_eq!(rt; got, want, "{row:?}");
}

/// Whether the text of a value, at a level, is this.
fn same_text(rt: &impl Abort, alloc: Global, level: usize, value: &Value<Global>, want: &str) {
    match to_text(alloc, level, value) {
        Ok(text) => same(rt, want, text.as_str(), want),
        Err(_) => assert!(rt; false, "{want:?}"),
    }
}

#[test]
fn to_text_of_what_was_read(rt: HostRuntime) {
    for (level, text, want) in ROWS {
        match parse_value(rt.alloc(), *level, text) {
            Ok(value) => same_text(&rt, rt.alloc(), *level, &value, want),
            Err(_) => assert!(rt; false, "{text:?}"),
        }
    }
}

/// A text without whitespace, and without escapes other than the written ones, is written
/// unchanged.
#[test]
fn to_text_of_what_it_wrote(rt: HostRuntime) {
    for (level, _, text) in ROWS {
        match parse_value(rt.alloc(), *level, text) {
            Ok(value) => same_text(&rt, rt.alloc(), *level, &value, text),
            Err(_) => assert!(rt; false, "{text:?}"),
        }
    }
}

#[test]
fn reads_back_what_is_written_alike(rt: HostRuntime) {
    for (level, text, want) in ROWS {
        match parse_value(rt.alloc(), *level, text) {
            Ok(value) => match reads_back(rt.alloc(), *level, &value) {
                Ok(again) => same_text(&rt, rt.alloc(), *level, &again, want),
                Err(_) => assert!(rt; false, "{text:?}"),
            },
            Err(_) => assert!(rt; false, "{text:?}"),
        }
    }
}

/// A text, and the level of its value: at one less the value is not written.
const LEVELS: &[(usize, &str)] = &[
    (1, "[]"),
    (1, "{}"),
    (1, "[1,2,3]"),
    (1, "{\"a\":1}"),
    (2, "[[]]"),
    (2, "[1,[2]]"),
    (2, "[1,{}]"),
    (2, "{\"a\":1,\"b\":[]}"),
    (2, "{\"a\":{}}"),
    (4, "[[],[[]],{\"a\":[[]]}]"),
];

#[test]
fn to_text_by_level(rt: HostRuntime) {
    for (level, text) in LEVELS {
        match parse_value(rt.alloc(), *level, text) {
            Ok(value) => {
                same_text(&rt, rt.alloc(), *level, &value, text);
                same_text(&rt, rt.alloc(), *level + 1, &value, text);
                let less = to_text(rt.alloc(), *level - 1, &value);
                assert!(rt; matches!(less, Err(WriteError::Level)), "{text:?}");
            }
            Err(_) => assert!(rt; false, "{text:?}"),
        }
    }
}

#[test]
fn write_value_behind_what_is_there(rt: HostRuntime) {
    match parse_value(rt.alloc(), 1, "[1, \"a\"]") {
        Ok(value) => {
            let mut into = String::new(rt.alloc());
            assert!(rt; into.push_str("x = ").is_ok());
            assert!(rt; write_value(1, &value, &mut into).is_ok());
            assert!(rt; into.push_str("; ").is_ok());
            assert!(rt; write_value(3, &value, &mut into).is_ok());
            assert_eq!(rt; into.as_str(), "x = [1,\"a\"]; [1,\"a\"]");
        }
        Err(_) => assert!(rt; false),
    }
}
