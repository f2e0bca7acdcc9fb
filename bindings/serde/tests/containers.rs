//! Rows of arrays, objects and enums, and of types of the standard library. The values follow from
//! RFC 8259 and the documentation of serde's data model.
mod support;

use serde::Deserialize;
use std::collections::{BTreeMap, BTreeSet, VecDeque};
use std::net::{IpAddr, Ipv4Addr};
use std::num::NonZeroU8;
use std::ops::{Bound, Range};
use std::path::PathBuf;
use std::time::Duration;
use support::{accepts, rejects};

fn strings<const N: usize>(from: [&str; N]) -> Vec<String> {
    from.map(String::from).to_vec()
}

#[test]
fn arrays() {
    accepts(&[
        ("[]", vec![]),
        ("[1]", vec![1u8]),
        (" [ 1 , 2\n] ", vec![1, 2]),
        ("[0,0,0]", vec![0; 3]),
    ]);
    rejects::<Vec<u8>>(&[
        "[1,]", "[,]", "[1 2]", "[", "[1", "]", "[1]]", "{}", "\"a\"", "null", "1",
    ]);
    rejects::<Vec<u8>>(&["[256]", "[1, 2, -3]", "[null]", "[[1]]", "{\"0\": 1}"]);
    accepts(
        &[("[[], [1], [[]]]", ())].map(|(text, ())| (text, serde_json::json!([[], [1], [[]]]))),
    );
    accepts(&[("[[],[\"a\",\"b\"]]", vec![vec![], strings(["a", "b"])])]);
    accepts(&[("[1,\"a\",null]", (1u8, "a".to_string(), ()))]);
    rejects::<(u8, u8)>(&["[1]", "[1,2,3]", "[]", "1", "{}", "[1,\"2\"]", "[1,2,[]]"]);
    accepts(&[("[1,2]", [1u8, 2])]);
    accepts(&[("[]", [0u8; 0])]);
    rejects::<[u8; 0]>(&["[1]", "null"]);
    rejects::<[u8; 2]>(&["[1]", "[1,2,3]"]);
    accepts(&[("[3,1,3]", BTreeSet::from([1u8, 3]))]);
    accepts(&[("[3,1]", VecDeque::from([3u8, 1]))]);
    accepts(&[("[null,1]", vec![None, Some(1u8)])]);
}

#[test]
fn maps() {
    let map = |rows: &[(&str, u8)]| rows.iter().map(|it| (it.0.to_string(), it.1)).collect();
    accepts::<BTreeMap<String, u8>>(&[
        ("{}", map(&[])),
        (" { \"a\" : 1 , \"\" : 2 } ", map(&[("a", 1), ("", 2)])),
        ("{\"a\":1,\"a\":2}", map(&[("a", 2)])),
        ("{\"\\u0061\":1,\"\\n\":2}", map(&[("a", 1), ("\n", 2)])),
    ]);
    rejects::<BTreeMap<String, u8>>(&[
        "{\"a\":1,}",
        "{a:1}",
        "{1:1}",
        "{\"a\"}",
        "{\"a\":}",
        "{,}",
        "{",
        "[]",
    ]);
    rejects::<BTreeMap<String, u8>>(&[
        "{\"a\":256}",
        "null",
        "{\"a\":1}}",
        "{\"a\" 1}",
        "{\"a\":1 \"b\":2}",
    ]);
}

#[test]
fn keys() {
    accepts(&[("{\"1\":2,\"255\":0}", BTreeMap::from([(1u8, 2u8), (255, 0)]))]);
    rejects::<BTreeMap<u8, u8>>(&[
        "{\"256\":1}",
        "{\"-1\":1}",
        "{\"a\":1}",
        "{\"\":1}",
        "{\"1.0\":1}",
    ]);
    rejects::<BTreeMap<u8, u8>>(&[
        "{\" 1\":1}",
        "{\"1 \":1}",
        "{1:1}",
        "{\"1e0\":1}",
        "{\"[1]\":1}",
    ]);
    accepts(&[(
        "{\"-5\":0,\"9223372036854775807\":1}",
        BTreeMap::from([(-5i64, 0u8), (i64::MAX, 1)]),
    )]);
    accepts(&[("{\"-5\":0}", BTreeMap::from([(-5i128, 0u8)]))]);
    accepts(&[("{\"18446744073709551616\":0}", BTreeMap::from([(1u128 << 64, 0u8)]))]);
    rejects::<BTreeMap<u128, u8>>(&["{\"-1\":1}", "{\"1.0\":1}", "{\"a\":1}"]);
    accepts(&[("{\"a\":0,\"\\u00e9\":1}", BTreeMap::from([('a', 0u8), ('é', 1)]))]);
    rejects::<BTreeMap<char, u8>>(&["{\"ab\":0}", "{\"\":0}"]);
    accepts(&[("{\"a\":0}", BTreeMap::from([(Some("a".to_string()), 0u8)]))]);
    rejects::<BTreeMap<(), u8>>(&["{\"a\":0}", "{\"null\":0}"]);
    rejects::<BTreeMap<Vec<u8>, u8>>(&["{\"a\":0}"]);
}

/// Keys that `serde_json` accepts since a later version than some distributions have, and numbers
/// that it rejects since then.
#[test]
fn numbers_as_keys() {
    let found = pergidau_serde::from_str("{\"true\":1,\"false\":0}");
    assert_eq!(found, Ok(BTreeMap::from([(true, 1u8), (false, 0)])));
    for text in ["{\"True\":1}", "{\"\":1}", "{\"tru\\u0065\":1}"] {
        assert!(pergidau_serde::from_str::<BTreeMap<bool, u8>>(text).is_err(), "{text}");
    }
    let floats: Vec<(Float, u8)> =
        pergidau_serde::from_str::<Pairs<Float>>("{\"1.5\":1,\"-2e3\":2}").unwrap().0;
    assert_eq!(floats, [(Float(1.5), 1), (Float(-2000.0), 2)]);
    for text in
        ["{\"01\":1}", "{\"+1\":1}", "{\"-0\":1}", "{\"\\u0031\":1}", "{\"1\\n\":1}", "{\"-\":1}"]
    {
        assert!(pergidau_serde::from_str::<BTreeMap<i8, u8>>(text).is_err(), "{text}");
    }
}

#[derive(Deserialize, Debug, PartialEq)]
struct Float(f64);

/// The members of an object.
#[derive(Debug)]
struct Pairs<K>(Vec<(K, u8)>);

impl<'de, K: Deserialize<'de>> Deserialize<'de> for Pairs<K> {
    fn deserialize<D: serde::Deserializer<'de>>(deserializer: D) -> Result<Self, D::Error> {
        struct Visitor<K>(Vec<(K, u8)>);
        impl<'de, K: Deserialize<'de>> serde::de::Visitor<'de> for Visitor<K> {
            type Value = Pairs<K>;

            fn expecting(&self, f: &mut std::fmt::Formatter<'_>) -> std::fmt::Result {
                f.write_str("pairs")
            }

            fn visit_map<A: serde::de::MapAccess<'de>>(
                mut self,
                mut map: A,
            ) -> Result<Pairs<K>, A::Error> {
                while let Some(pair) = map.next_entry()? {
                    self.0.push(pair);
                }
                Ok(Pairs(self.0))
            }
        }
        deserializer.deserialize_map(Visitor(Vec::new()))
    }
}

#[derive(Deserialize, Debug, PartialEq, Eq, PartialOrd, Ord, Clone, Copy)]
enum Shape {
    Unit,
    New(u8),
    Pair(u8, u8),
    Fields { a: u8 },
}

#[test]
fn enums() {
    use Shape::*;
    accepts(&[
        ("\"Unit\"", Unit),
        ("{\"Unit\":null}", Unit),
        (" { \"Uni\\u0074\" : null } ", Unit),
    ]);
    accepts(&[
        ("{\"New\":1}", New(1)),
        ("{\"Pair\":[1,2]}", Pair(1, 2)),
        ("{\"Fields\":{\"a\":1}}", Fields { a: 1 }),
    ]);
    accepts(&[
        ("{\"Fields\":[1]}", Fields { a: 1 }),
        ("{\"Fields\":{\"b\":[],\"a\":1}}", Fields { a: 1 }),
    ]);
}

#[test]
fn invalid_enums() {
    rejects::<Shape>(&[
        "{\"Unit\":1}",
        "{\"Unit\":{}}",
        "{\"Unit\":[]}",
        "\"unit\"",
        "\"\"",
        "null",
        "0",
        "[]",
    ]);
    rejects::<Shape>(&["\"New\"", "{\"New\":null}", "{\"New\":256}", "{\"New\":[1]}"]);
    rejects::<Shape>(&[
        "\"Pair\"",
        "{\"Pair\":[1]}",
        "{\"Pair\":[1,2,3]}",
        "{\"Pair\":{}}",
        "{\"Pair\":null}",
    ]);
    rejects::<Shape>(&[
        "\"Fields\"",
        "{\"Fields\":{}}",
        "{\"Fields\":[]}",
        "{\"Fields\":[1,2]}",
        "{\"Fields\":1}",
    ]);
    rejects::<Shape>(&[
        "{}",
        "{\"Unit\":null,\"Unit\":null}",
        "{\"New\":1,\"a\":2}",
        "{\"X\":1}",
        "[\"Unit\"]",
    ]);
}

#[test]
fn enums_in_others() {
    use Shape::*;
    accepts(&[("{\"Unit\":1}", BTreeMap::from([(Unit, 1u8)]))]);
    rejects::<BTreeMap<Shape, u8>>(&["{\"New\":1}", "{\"X\":1}"]);
    accepts(&[("[\"Unit\",{\"New\":1}]", vec![Unit, New(1)])]);
    accepts(&[("null", None), ("\"Unit\"", Some(Unit))]);
    accepts::<Result<u8, String>>(&[("{\"Ok\":1}", Ok(1)), ("{\"Err\":\"a\"}", Err("a".into()))]);
}

#[test]
fn types_of_the_standard_library() {
    accepts(&[("{\"secs\":1,\"nanos\":2}", Duration::new(1, 2)), ("[1,2]", Duration::new(1, 2))]);
    rejects::<Duration>(&[
        "{\"secs\":1}",
        "{\"secs\":1,\"nanos\":2,\"a\":0}",
        "1",
        "{\"secs\":1,\"secs\":1,\"nanos\":2}",
    ]);
    accepts(&[
        ("\"127.0.0.1\"", IpAddr::V4(Ipv4Addr::LOCALHOST)),
        ("\"::\"", "::".parse().unwrap()),
    ]);
    rejects::<IpAddr>(&["\"127.0.0\"", "127", "[127,0,0,1]"]);
    accepts(&[("1", NonZeroU8::MIN)]);
    rejects::<NonZeroU8>(&["0", "256"]);
    accepts(&[("{\"start\":1,\"end\":2}", Range { start: 1u8, end: 2 })]);
    accepts(&[("\"Unbounded\"", Bound::Unbounded), ("{\"Included\":1}", Bound::Included(1u8))]);
    accepts(&[("\"/a\\\\b\"", PathBuf::from("/a\\b"))]);
    accepts(&[("1", Box::new(1u8))]);
    accepts(&[("[1,[2,{\"a\":null}]]", serde::de::IgnoredAny), ("1e999", serde::de::IgnoredAny)]);
}
