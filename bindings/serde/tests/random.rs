//! Random texts, compared with `serde_json`: both return equal values, or both return errors.
mod support;

use serde::de::DeserializeOwned;
use serde::Deserialize;
use serde_json::Value;
use std::collections::{BTreeMap, HashSet};
use std::fmt::Debug;
use support::shown;

/// The number of texts for each type.
const TEXTS: u32 = 6000;

#[derive(Deserialize, Debug)]
#[allow(dead_code)]
struct Inner {
    a: u8,
    b: Option<String>,
    #[serde(default)]
    c: Vec<f64>,
}

#[derive(Deserialize, Debug)]
#[serde(deny_unknown_fields)]
#[allow(dead_code)]
struct Outer {
    a: Inner,
    b: (i16, bool),
    #[serde(rename = "é")]
    c: Option<Shape>,
}

#[derive(Deserialize, Debug)]
#[serde(rename_all = "lowercase")]
#[allow(dead_code)]
enum Shape {
    A,
    B(i64),
    C(u8, f32),
    D { a: u32, b: Option<char> },
}

#[derive(Deserialize, Debug)]
#[serde(untagged)]
#[allow(dead_code)]
enum Untagged {
    Natural(u32),
    Float(f64),
    Text(String),
    Inner(Inner),
    List(Vec<Untagged>),
    Other(BTreeMap<String, Value>),
}

#[derive(Deserialize, Debug)]
#[allow(dead_code)]
struct Flat {
    a: i8,
    #[serde(flatten)]
    b: BTreeMap<String, Option<i64>>,
}

#[derive(Deserialize, Debug)]
#[serde(tag = "a", rename_all = "lowercase")]
#[allow(dead_code)]
enum Tagged {
    B { b: u16 },
    C(Inner),
    D,
}

#[derive(Deserialize, Debug)]
#[serde(tag = "a", content = "b", rename_all = "lowercase")]
#[allow(dead_code)]
enum Adjacent {
    B(u16),
    C(Vec<Adjacent>),
    D,
}

/// A generator of random numbers (xorshift).
struct Random(u64);

impl Random {
    fn next(&mut self) -> u64 {
        self.0 ^= self.0 << 13;
        self.0 ^= self.0 >> 7;
        self.0 ^= self.0 << 17;
        self.0
    }

    fn below(&mut self, end: usize) -> usize {
        (self.next() >> 11) as usize % end
    }

    fn one_in(&mut self, number: usize) -> bool {
        self.below(number) == 0
    }

    fn pick<'a>(&mut self, from: &[&'a str]) -> &'a str {
        from[self.below(from.len())]
    }
}

const NAMES: [&str; 8] = ["a", "b", "c", "d", "é", "1", "-7", ""];
const SCALARS: [&str; 30] = [
    "null",
    "true",
    "false",
    "0",
    "1",
    "-1",
    "7",
    "127",
    "128",
    "-128",
    "-129",
    "255",
    "256",
    "65536",
    "4294967296",
    "9223372036854775808",
    "-9223372036854775809",
    "18446744073709551616",
    "-0",
    "1.0",
    "-2.50",
    "1e2",
    "1E-7",
    "0.1",
    "1e308",
    "1e309",
    "123456789012345678901234567890.5e-10",
    "\"a\"",
    "\"c\"",
    "\"ab\\n\"",
];
/// The pieces that are written into texts, or instead of a character.
const PIECES: [&str; 24] = [
    "", "", "", ",", ":", "[", "]", "{", "}", "\"", "\\", "\\u00", "d8", "0", "1", "-", ".", "e",
    " ", "\n", "null", "é", "\u{1}", "/",
];

/// Writes a value as JSON, with random whitespace and escapes, and sometimes with another value, or
/// with repeated, missing or further members.
fn write(value: &Value, random: &mut Random, text: &mut String) {
    text.push_str(random.pick(&["", "", "", " ", "\n\t"]));
    if random.one_in(20) {
        text.push_str(random.pick(&SCALARS));
    } else if random.one_in(40) {
        text.push_str(random.pick(&[
            "[]",
            "{}",
            "[1,true]",
            "{\"a\":1}",
            "[[null]]",
            "{\"b\":[]}",
        ]));
    } else {
        match value {
            Value::Array(elements) => {
                write_all(elements.iter().map(|it| (None, it)), random, text, ["[", "]"])
            }
            Value::Object(map) => {
                write_all(map.iter().map(|(name, it)| (Some(name), it)), random, text, ["{", "}"])
            }
            Value::String(it) => write_string(it, random, text),
            other => text.push_str(&other.to_string()),
        }
    }
    text.push_str(random.pick(&["", "", "", " ", "\r"]));
}

/// Writes elements or members.
fn write_all<'a>(
    inside: impl Iterator<Item = (Option<&'a String>, &'a Value)>,
    random: &mut Random,
    text: &mut String,
    brackets: [&str; 2],
) {
    text.push_str(brackets[0]);
    let mut separator = "";
    for (name, value) in inside {
        let count = if random.one_in(24) { random.below(3) } else { 1 };
        for _ in 0..count {
            text.push_str(separator);
            separator = ",";
            if let Some(name) = name {
                let other = random.one_in(24);
                write_string(if other { random.pick(&NAMES) } else { name }, random, text);
                text.push(':');
            }
            write(value, random, text);
        }
    }
    text.push_str(brackets[1]);
}

fn write_string(string: &str, random: &mut Random, text: &mut String) {
    text.push('"');
    for char in string.chars() {
        if random.one_in(12) && !matches!(char, '0'..='9' | '-') {
            for unit in char.encode_utf16(&mut [0; 2]) {
                text.push_str(&format!("\\u{unit:04x}"));
            }
        } else {
            text.push(char);
        }
    }
    text.push('"');
}

/// Replaces, inserts or deletes at a random offset.
fn damage(text: &str, random: &mut Random) -> String {
    let chars: Vec<char> = text.chars().collect();
    let at = random.below(chars.len() + 1);
    let rest = chars.iter().skip(at + random.below(2));
    let piece = random.pick(&PIECES);
    chars[..at].iter().copied().chain(piece.chars()).chain(rest.copied()).collect()
}

/// Compares the results for random variations of these texts. With `is_damaged`, a quarter of the
/// texts has other characters too.
fn compare<T: DeserializeOwned + Debug>(texts: &[&str], is_damaged: bool) {
    let mut random = Random(0x9E37_79B9_7F4A_7C15 ^ texts[0].len() as u64);
    let mut kinds = [0; 2];
    for number in 0..TEXTS {
        let value: Value = serde_json::from_str(texts[random.below(texts.len())]).unwrap();
        let mut text = String::new();
        write(&value, &mut random, &mut text);
        if is_damaged && random.one_in(4) {
            text = damage(&text, &mut random);
        }
        let found = pergidau_serde::from_str::<T>(&text);
        let wanted = serde_json::from_str::<T>(&text);
        kinds[usize::from(wanted.is_ok())] += 1;
        // serde_json does not check the escapes of ignored strings.
        let is_unpaired = found.as_ref().is_err_and(|it| it.diagnostic().is_some())
            && text.contains("\\u")
            && serde_json::from_str::<Value>(&text).is_err();
        if !(is_unpaired && wanted.is_ok()) {
            assert_eq!(shown(found), shown(wanted), "text {number}: {text}");
        }
    }
    // Both values and errors are compared.
    assert!(kinds.iter().all(|it| *it > TEXTS / 20), "{kinds:?}");
}

#[test]
fn any_value() {
    let texts = [
        "{\"a\":[1,-2.5,\"x\\ny\",{\"b\":null}],\"é\":{},\"\":[[],[true,[false]]]}",
        "[0,18446744073709551615,-9223372036854775808,1e-300,\"😀\",{\"a\":{\"a\":{\"a\":0}}}]",
    ];
    compare::<Value>(&texts, true);
    compare::<serde::de::IgnoredAny>(&texts, true);
}

#[test]
fn numbers_and_strings() {
    let texts = ["[]", "[1]", "[1,2,0.1]", "[-1,-128,127]", "[1e2,0.30000000000000004,4e-320]"];
    compare::<Vec<u8>>(&texts, true);
    compare::<Vec<i64>>(&texts, true);
    compare::<Vec<f64>>(&texts, true);
    compare::<Vec<f32>>(&texts, true);
    compare::<Vec<i128>>(&texts, true);
    compare::<(u64, Option<f64>)>(&["[1,2.5]", "[0,null]"], true);
    compare::<Vec<String>>(&["[\"\"]", "[\"a\",\"é😀\\n\\\"\"]", "[\"abc\"]"], true);
    compare::<HashSet<char>>(&["[\"a\"]", "[\"é\"]", "[]", "[\"ab\"]"], true);
    compare::<Box<[Option<bool>]>>(&["[true,null]", "[false]"], true);
}

#[test]
fn derived() {
    let inner = "{\"a\":1,\"b\":\"x\",\"c\":[1.5,2]}";
    compare::<Inner>(&[inner, "{\"a\":255,\"d\":[\"\"]}"], true);
    let outer = format!("{{\"a\":{inner},\"b\":[-5,true],\"é\":{{\"b\":7}}}}");
    compare::<Outer>(&[&outer, "{\"a\":{\"a\":0},\"b\":[1,false]}"], true);
    let shapes =
        ["\"a\"", "{\"a\":null}", "{\"b\":-7}", "{\"c\":[1,2.5]}", "{\"d\":{\"a\":1,\"b\":\"c\"}}"];
    compare::<Shape>(&shapes, true);
    compare::<Vec<Shape>>(&["[\"a\",{\"b\":1}]", "[{\"d\":[1,null]}]"], true);
}

#[test]
fn buffered() {
    let texts =
        ["1", "2.5", "\"a\"", "{\"a\":1,\"b\":null}", "[1,[\"\",{\"x\":[]}],-1]", "{\"x\":1}"];
    compare::<Untagged>(&texts, true);
    compare::<Flat>(&["{\"a\":1,\"b\":2,\"c\":null}", "{\"a\":-128}"], true);
    compare::<Tagged>(&["{\"a\":\"b\",\"b\":1}", "{\"a\":\"c\"}", "{\"a\":\"d\",\"x\":[]}"], true);
    compare::<Adjacent>(
        &["{\"a\":\"b\",\"b\":1}", "{\"a\":\"c\",\"b\":[{\"a\":\"d\"}]}", "{\"a\":\"d\"}"],
        true,
    );
}

#[test]
fn keys() {
    compare::<BTreeMap<String, i32>>(&["{\"a\":1,\"b\":-2}", "{}", "{\"é\":7}"], true);
    compare::<BTreeMap<Option<char>, u8>>(&["{\"a\":1,\"b\":2}", "{\"é\":7}"], true);
    // (serde_json of some versions accepts numbers in other forms)
    compare::<BTreeMap<u8, u8>>(&["{\"1\":1,\"255\":2}", "{\"7\":7}"], false);
    compare::<BTreeMap<i64, Option<u8>>>(&["{\"1\":1,\"-7\":2}", "{\"0\":null}"], false);
    compare::<BTreeMap<i128, u8>>(&["{\"1\":1,\"-7\":2}"], false);
}
