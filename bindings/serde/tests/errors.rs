//! The offsets and messages of errors, and the depth limit.
use pergidau::json::Expected;
use pergidau_serde::{from_slice, from_str, Deserializer, Document, Error, DEFAULT_DEPTH};
use serde::de::{Error as _, IgnoredAny, MapAccess, SeqAccess, Visitor};
use serde::Deserialize;
use std::collections::BTreeMap;
use std::fmt;

#[derive(Deserialize, Debug)]
#[serde(deny_unknown_fields)]
#[allow(dead_code)]
struct Point {
    x: u8,
    y: Option<Shape>,
}

#[derive(Deserialize, Debug)]
#[allow(dead_code)]
enum Shape {
    Unit,
    New(u8),
    Pair(u8, u8),
}

/// Checks the offset and the message of an error.
fn fails<'de, T: Deserialize<'de> + fmt::Debug>(text: &'de str, offset: usize, message: &str) {
    let error = from_str::<T>(text).unwrap_err();
    assert_eq!((error.offset(), error.message()), (Some(offset), Some(message)), "{text}");
    let line = format!("line 1, column {}: {message}", offset + 1);
    assert_eq!(error.to_string(), line);
    assert_eq!(
        error.position().map(|it| (it.offset, it.line, it.column)),
        Some((offset, 1, offset + 1))
    );
    assert!(error.diagnostic().is_none());
}

#[test]
fn offsets_of_values() {
    fails::<u8>(" 256", 1, "invalid value: integer `256`, expected u8");
    fails::<u8>("-1", 0, "invalid value: integer `-1`, expected u8");
    fails::<u8>("1.5", 0, "invalid type: floating point `1.5`, expected u8");
    fails::<Vec<bool>>("[true, null]", 7, "invalid type: null, expected a boolean");
    fails::<Vec<String>>("[\"a\", [1]]", 6, "invalid type: sequence, expected a string");
    fails::<Vec<String>>("[{}]", 1, "invalid type: map, expected a string");
    fails::<u8>("\"a\\\"\"", 0, "invalid type: string \"a\\\"\", expected u8");
    fails::<f64>(" -1e999", 1, "number out of range");
    fails::<f32>("3.5e38", 0, "number out of range");
    fails::<u128>("-1", 0, "number out of range");
    fails::<i128>(" 1.5", 1, "invalid type: floating point `1.5`, expected i128");
    fails::<bool>("1e999", 0, "number out of range");
    fails::<(u8, u8)>(" [1, 2, 3, [4]]", 8, "invalid length 4, expected fewer elements in array");
    fails::<(u8, u8)>(" [1]", 1, "invalid length 1, expected a tuple of size 2");
    fails::<Vec<(u8, u8)>>("[[1, 2], [1]]", 9, "invalid length 1, expected a tuple of size 2");
    fails::<BTreeMap<u8, u8>>(
        "{\"1\": 2, \"a\": 3}",
        9,
        "invalid value: expected key to be a number in quotes",
    );
    fails::<BTreeMap<u8, u8>>("{\"256\": 2}", 1, "invalid value: integer `256`, expected u8");
    fails::<BTreeMap<bool, u8>>("{\"a\": 2}", 1, "invalid type: string \"a\", expected a boolean");
    fails::<&str>("\"\\n\"", 0, "invalid type: string \"\\n\", expected a borrowed string");
}

#[test]
fn offsets_of_fields_and_variants() {
    fails::<Point>(" {\"y\": null}", 1, "missing field `x`");
    fails::<Point>("{\"x\": 1, \"z\": 2}", 9, "unknown field `z`, expected `x` or `y`");
    fails::<Point>("{\"x\": 1, \"x\": 2}", 9, "duplicate field `x`");
    fails::<Point>(
        "{\"x\": 1, \"y\": {\"New\": 256}}",
        22,
        "invalid value: integer `256`, expected u8",
    );
    fails::<Vec<Point>>(
        "[{\"x\": 1}, {\"x\": \"\"}]",
        17,
        "invalid type: string \"\", expected u8",
    );
    fails::<Shape>(" \"New\"", 1, "invalid type: unit variant, expected newtype variant");
    fails::<Shape>(" \"A\"", 1, "unknown variant `A`, expected one of `Unit`, `New`, `Pair`");
    fails::<Shape>(" {\"A\": 1}", 2, "unknown variant `A`, expected one of `Unit`, `New`, `Pair`");
    fails::<Shape>("{\"Pair\": [1, true]}", 13, "invalid type: boolean `true`, expected u8");
    fails::<Shape>(" {}", 1, "invalid value: map, expected map with a single key");
    fails::<Shape>(
        "{\"New\": 1, \"New\": 1}",
        0,
        "invalid value: map, expected map with a single key",
    );
    fails::<Shape>(" 1", 1, "invalid type: integer `1`, expected enum Shape");
    let error = from_str::<Vec<u8>>("[1,\n  2,\n\t\"é\", \"é\"]").unwrap_err();
    assert_eq!(error.to_string(), "line 3, column 2: invalid type: string \"é\", expected u8");
}

#[test]
fn errors_of_texts() {
    let error = from_str::<Vec<u8>>("[256,]").unwrap_err();
    assert_eq!(error.to_string(), "line 1, column 6: expected a value");
    assert_eq!((error.offset(), error.message()), (Some(5), None));
    assert_eq!(error.diagnostic().unwrap().expected, Some(Expected::Value));
    let error = from_str::<u8>("1 2").unwrap_err();
    assert_eq!(error.to_string(), "line 1, column 3: expected the end of the text");
    let error = from_str::<Vec<u8>>("[1").unwrap_err();
    assert_eq!(error.diagnostic().unwrap().error, pergidau::Error::Incomplete);
    assert_eq!(
        error.to_string(),
        "line 1, column 3: unexpected end of input, expected a comma or `]`"
    );
    for (bytes, offset) in
        [(&b"[\"\xFF\"]"[..], 2), (b"\xEF\xBB\xBF1", 0), (b"[\"\xC3", 2), (b"[x\xFF", 1)]
    {
        let error = from_slice::<Vec<String>>(bytes).unwrap_err();
        assert_eq!(error.offset(), Some(offset), "{error}");
        assert!(error.diagnostic().is_some() && error.position().is_some());
    }
    assert_eq!(format!("{error:?}"), format!("Error({:?})", error.to_string()));
    assert_eq!(error.clone(), error);
    let error: Box<dyn std::error::Error> = Box::new(error);
    assert!(error.source().is_none());
}

#[test]
fn depth() {
    let nested = |depth: usize| "[".repeat(depth) + &"]".repeat(depth);
    for (depth, fits) in
        [(1, true), (DEFAULT_DEPTH, true), (DEFAULT_DEPTH + 1, false), (2000, false)]
    {
        let text = nested(depth);
        assert_eq!(from_str::<serde_json::Value>(&text).is_ok(), fits);
        assert_eq!(serde_json::from_str::<serde_json::Value>(&text).is_ok(), fits);
    }
    // Ignored values have the same limit.
    let error = from_str::<IgnoredAny>(&nested(DEFAULT_DEPTH + 1)).unwrap_err();
    assert_eq!(error.to_string(), "line 1, column 128: nested too deep");
    let text = nested(pergidau::MAX_DEPTH);
    let document = Document::parse(&text, pergidau::MAX_DEPTH).unwrap();
    assert!(document.deserialize::<serde_json::Value>().is_ok());
    assert_eq!(Document::parse(&text, 511).unwrap_err().offset(), Some(511));
    assert_eq!(Document::parse("1", 0).unwrap().deserialize(), Ok(1u8));
    let error = Document::parse("1", 513).unwrap_err();
    assert_eq!(error.diagnostic().unwrap().error, pergidau::Error::MaxDepthTooLarge);
    assert_eq!((error.offset(), error.position()), (None, None));
}

/// Reads the first element or member, and returns an error of its own if that element is 0.
#[derive(Debug, PartialEq)]
struct First(u8);

impl<'de> Deserialize<'de> for First {
    fn deserialize<D: serde::Deserializer<'de>>(deserializer: D) -> Result<First, D::Error> {
        struct OfFirst;
        impl<'de> Visitor<'de> for OfFirst {
            type Value = First;

            fn expecting(&self, f: &mut fmt::Formatter<'_>) -> fmt::Result {
                f.write_str("an array")
            }

            fn visit_seq<A: SeqAccess<'de>>(self, mut elements: A) -> Result<First, A::Error> {
                match elements.next_element()? {
                    Some(0) => Err(A::Error::custom("zero")),
                    Some(first) => Ok(First(first)),
                    None => Err(A::Error::invalid_length(0, &self)),
                }
            }

            fn visit_map<A: MapAccess<'de>>(self, mut members: A) -> Result<First, A::Error> {
                let member = members.next_entry::<&str, u8>()?;
                Ok(First(member.map_or(0, |it| it.1)))
            }
        }
        deserializer.deserialize_any(OfFirst)
    }
}

#[test]
fn visitors_that_stop() {
    assert_eq!(from_str("[1]"), Ok(First(1)));
    assert_eq!(serde_json::from_str::<First>("[1]").unwrap(), First(1));
    assert!(serde_json::from_str::<First>("[1, 2]").is_err());
    fails::<First>("[1, [2], 3]", 4, "invalid length 3, expected fewer elements in array");
    fails::<First>(" [0, 2]", 2, "zero");
    fails::<First>(" [0]", 2, "zero");
    fails::<First>(" []", 1, "invalid length 0, expected an array");
    assert_eq!(from_str("{\"a\": 1}"), Ok(First(1)));
    let text = "{\"a\": 1, \"b\": {}, \"c\": [3]}";
    fails::<First>(text, 9, "invalid length 3, expected fewer elements in map");
    assert!(serde_json::from_str::<First>(text).is_err());
}

#[test]
fn deserializers() {
    let document = Document::parse(" [1, true]", 1).unwrap();
    let value: Deserializer<'_, '_> = document.deserializer();
    assert_eq!(<(u8, bool)>::deserialize(value), Ok((1, true)));
    let error: Error = <(u8, u8)>::deserialize(value).unwrap_err();
    assert_eq!((error.offset(), error.position()), (Some(5), None));
    assert_eq!(error.to_string(), "offset 5: invalid type: boolean `true`, expected u8");
    assert_eq!(Error::custom("a").to_string(), "a");
    assert_eq!((Error::custom("a").offset(), Error::custom("a").position()), (None, None));
}
