//! Derived types with attributes of serde. The values follow from the documentation of the
//! attributes.
mod support;

use serde::Deserialize;
use std::borrow::Cow;
use std::collections::BTreeMap;
use support::{accepts, rejects};

#[derive(Deserialize, Debug, PartialEq, Default)]
struct Point {
    x: i32,
    y: i32,
}

#[derive(Deserialize, Debug, PartialEq)]
struct Nested {
    name: String,
    points: Vec<Point>,
    inner: Option<Box<Nested>>,
}

#[test]
fn fields() {
    accepts(&[
        ("{\"x\":1,\"y\":-2}", Point { x: 1, y: -2 }),
        ("{\"y\":2,\"z\":[{}],\"x\":1}", Point { x: 1, y: 2 }),
        ("{\"\\u0078\":1,\"y\":2}", Point { x: 1, y: 2 }),
        ("[1,2]", Point { x: 1, y: 2 }),
    ]);
    rejects::<Point>(&[
        "{}",
        "{\"x\":1}",
        "{\"x\":1,\"y\":2,\"x\":1}",
        "[1]",
        "[1,2,3]",
        "null",
        "\"x\"",
    ]);
    rejects::<Point>(&[
        "{\"x\":1,\"y\":null}",
        "{\"x\":1,\"y\":2}}",
        "{\"X\":1,\"y\":2}",
        "{\"x\":1,\"y\":2147483648}",
    ]);
}

#[test]
fn nested() {
    let leaf = |name: &str| Nested { name: name.into(), points: vec![], inner: None };
    accepts(&[
        ("{\"name\":\"a\",\"points\":[],\"inner\":null}", leaf("a")),
        ("{\"points\":[],\"name\":\"a\"}", leaf("a")),
        (
            "{\"name\":\"a\",\"points\":[{\"x\":0,\"y\":1},[2,3]],\
              \"inner\":{\"name\":\"b\",\"points\":[]}}",
            Nested {
                name: "a".into(),
                points: vec![Point { x: 0, y: 1 }, Point { x: 2, y: 3 }],
                inner: Some(Box::new(leaf("b"))),
            },
        ),
    ]);
    rejects::<Nested>(&[
        "{\"name\":\"a\"}",
        "{\"name\":\"a\",\"points\":null}",
        "{\"name\":1,\"points\":[]}",
    ]);
}

#[derive(Deserialize, Debug, PartialEq)]
struct Unit;
#[derive(Deserialize, Debug, PartialEq)]
struct New(u8);
#[derive(Deserialize, Debug, PartialEq)]
struct Tuple(u8, Option<u8>);
#[derive(Deserialize, Debug, PartialEq)]
struct Empty {}

#[test]
fn structs_without_names() {
    accepts(&[("null", Unit)]);
    rejects::<Unit>(&["[]", "{}", "\"Unit\""]);
    accepts(&[("5", New(5))]);
    rejects::<New>(&["[5]", "256", "{\"0\":5}", "null"]);
    accepts(&[("[1,null]", Tuple(1, None)), ("[1,2]", Tuple(1, Some(2)))]);
    rejects::<Tuple>(&["[1]", "[1,2,3]", "{}", "1"]);
    accepts(&[("{}", Empty {}), ("{\"a\":1}", Empty {}), ("[]", Empty {})]);
    rejects::<Empty>(&["null", "[1]", "\"\""]);
}

fn ten() -> u8 {
    10
}

#[derive(Deserialize, Debug, PartialEq)]
#[serde(rename_all = "camelCase", deny_unknown_fields)]
struct Renamed {
    #[serde(rename = "type")]
    kind: String,
    long_name: u8,
    #[serde(alias = "other")]
    one: u8,
    #[serde(default = "ten")]
    ten: u8,
    #[serde(skip)]
    skipped: u8,
}

#[derive(Deserialize, Debug, PartialEq, Default)]
#[serde(default)]
struct Defaults {
    a: u8,
    b: Option<u8>,
    c: Vec<u8>,
    d: Point,
}

#[test]
fn names_and_defaults() {
    let value = |one, ten| Renamed { kind: "t".into(), long_name: 1, one, ten, skipped: 0 };
    accepts(&[
        ("{\"type\":\"t\",\"longName\":1,\"one\":2}", value(2, 10)),
        ("{\"ten\":3,\"type\":\"t\",\"longName\":1,\"other\":2}", value(2, 3)),
    ]);
    rejects::<Renamed>(&[
        "{\"kind\":\"t\",\"longName\":1,\"one\":2}",
        "{\"type\":\"t\",\"long_name\":1,\"one\":2}",
        "{\"type\":\"t\",\"longName\":1,\"one\":2,\"other\":2}",
        "{\"type\":\"t\",\"longName\":1,\"one\":2,\"skipped\":0}",
        "{\"type\":\"t\",\"longName\":1,\"one\":2,\"ten\":null}",
    ]);
    accepts(&[
        ("{}", Defaults::default()),
        ("{\"b\":1,\"c\":[2]}", Defaults { b: Some(1), c: vec![2], ..Defaults::default() }),
        ("{\"d\":{\"x\":1,\"y\":2}}", Defaults { d: Point { x: 1, y: 2 }, ..Defaults::default() }),
    ]);
    rejects::<Defaults>(&["{\"a\":null}", "{\"d\":{}}", "{\"a\":1,\"a\":1}"]);
}

#[derive(Deserialize, Debug, PartialEq)]
struct Flat {
    id: u8,
    #[serde(flatten)]
    point: Point,
    #[serde(flatten)]
    rest: BTreeMap<String, serde_json::Value>,
}

#[derive(Deserialize, Debug, PartialEq)]
#[serde(untagged)]
enum Untagged {
    Number(u8),
    Signed(i64),
    Float(f64),
    Text(String),
    Pair(bool, u8),
    Fields { a: Option<u8> },
    Nothing,
}

#[test]
fn flattened_and_untagged() {
    let flat = |rest: &[(&str, serde_json::Value)]| Flat {
        id: 1,
        point: Point { x: 2, y: 3 },
        rest: rest.iter().map(|(name, value)| (name.to_string(), value.clone())).collect(),
    };
    accepts(&[
        ("{\"id\":1,\"x\":2,\"y\":3}", flat(&[])),
        ("{\"a\":[1.5],\"y\":3,\"x\":2,\"id\":1}", flat(&[("a", serde_json::json!([1.5]))])),
    ]);
    rejects::<Flat>(&[
        "{\"id\":1,\"x\":2}",
        "[1,2,3]",
        "{\"id\":256,\"x\":2,\"y\":3}",
        "{\"id\":1,\"id\":1,\"x\":2,\"y\":3}",
    ]);
    accepts(&[
        ("1", Untagged::Number(1)),
        ("256", Untagged::Signed(256)),
        ("-1", Untagged::Signed(-1)),
        ("-0", Untagged::Float(-0.0)),
        ("1.0", Untagged::Float(1.0)),
        ("18446744073709551616", Untagged::Float(18446744073709551616.0)),
        ("\"a\\n\"", Untagged::Text("a\n".into())),
        ("[true,1]", Untagged::Pair(true, 1)),
        ("{\"a\":1}", Untagged::Fields { a: Some(1) }),
        ("{}", Untagged::Fields { a: None }),
        ("null", Untagged::Nothing),
    ]);
    rejects::<Untagged>(&["true", "[true]", "[1,true]", "{\"a\":256}", "1e999", "[true,1,2]"]);
}

#[derive(Deserialize, Debug, PartialEq)]
#[serde(tag = "t")]
enum Internal {
    A,
    B { x: u8 },
    C(Point),
}

#[derive(Deserialize, Debug, PartialEq)]
#[serde(tag = "t", content = "c")]
enum Adjacent {
    A,
    B(u8),
    C { x: u8 },
    D(u8, u8),
}

#[test]
fn tagged() {
    accepts(&[("{\"t\":\"A\"}", Internal::A), ("{\"x\":1,\"t\":\"B\"}", Internal::B { x: 1 })]);
    accepts(&[("{\"t\":\"C\",\"x\":1,\"y\":2}", Internal::C(Point { x: 1, y: 2 }))]);
    rejects::<Internal>(&[
        "{}",
        "{\"t\":\"D\"}",
        "{\"t\":\"B\"}",
        "{\"t\":null}",
        "\"A\"",
        "{\"t\":\"A\",\"t\":\"A\"}",
    ]);
    accepts(&[("{\"t\":\"A\"}", Adjacent::A), ("{\"c\":1,\"t\":\"B\"}", Adjacent::B(1))]);
    accepts(&[
        ("{\"t\":\"C\",\"c\":{\"x\":1}}", Adjacent::C { x: 1 }),
        ("{\"t\":\"D\",\"c\":[1,2]}", Adjacent::D(1, 2)),
    ]);
    accepts(&[("{\"t\":\"A\",\"c\":null}", Adjacent::A)]);
    rejects::<Adjacent>(&[
        "{\"t\":\"B\"}",
        "{\"c\":1}",
        "{\"t\":\"D\",\"c\":[1]}",
        "{\"t\":\"B\",\"c\":256}",
        "{}",
    ]);
}

#[derive(Deserialize, Debug, PartialEq)]
#[serde(try_from = "u8")]
struct Even(u8);

impl TryFrom<u8> for Even {
    type Error = String;

    fn try_from(number: u8) -> Result<Even, String> {
        if number % 2 == 0 {
            Ok(Even(number))
        } else {
            Err(format!("{number} is odd"))
        }
    }
}

#[derive(Deserialize, Debug, PartialEq)]
struct Borrowing<'i> {
    text: &'i str,
    #[serde(borrow)]
    cow: Cow<'i, str>,
    bytes: &'i [u8],
    #[serde(borrow)]
    map: BTreeMap<&'i str, Option<&'i str>>,
}

#[test]
fn converted() {
    accepts(&[("4", Even(4))]);
    rejects::<Even>(&["3", "256", "\"4\""]);
    let error = pergidau_serde::from_str::<Vec<Even>>("[2, 3]").unwrap_err();
    assert_eq!(error.to_string(), "line 1, column 5: 3 is odd");
    let error = pergidau_serde::from_str::<BTreeMap<&str, Even>>("{\"a\": 3}").unwrap_err();
    assert_eq!(error.to_string(), "line 1, column 7: 3 is odd");
}

#[test]
fn borrowed() {
    let text = String::from(
        "{\"text\":\"abc\",\"cow\":\"é\",\"bytes\":\"de\",\"map\":{\"k\":\"v\",\"n\":null}}",
    );
    let value: Borrowing<'_> = pergidau_serde::from_str(&text).unwrap();
    assert_eq!(
        (value.text, value.bytes, value.map["k"], value.map["n"]),
        ("abc", &b"de"[..], Some("v"), None)
    );
    assert_eq!(value.text.as_ptr(), text[9..].as_ptr());
    assert_eq!(value.bytes.as_ptr(), text[text.find("de").unwrap()..].as_ptr());
    assert!(matches!(value.cow, Cow::Borrowed("é")));
    let escaped = text.replace('é', "\\u00e9");
    let value: Borrowing<'_> = pergidau_serde::from_slice(escaped.as_bytes()).unwrap();
    assert!(matches!(value.cow, Cow::Owned(_)) && value.cow == "é");
    assert_eq!(
        Ok(value),
        serde_json::from_str(&escaped).map_err(drop).map_err(|()| unreachable!())
    );
    for name in ["abc", "de", "k", "v"] {
        let escaped = text.replace(&format!("\"{name}\""), "\"\\u0061\"");
        assert!(pergidau_serde::from_str::<Borrowing<'_>>(&escaped).is_err(), "{escaped}");
        assert!(serde_json::from_str::<Borrowing<'_>>(&escaped).is_err(), "{escaped}");
    }
}
