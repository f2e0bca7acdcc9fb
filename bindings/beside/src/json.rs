//! JSON readers. A check counts 1 for a valid text. The other readers count each value; the sum is of
//! the kinds, numbered as in `pergidau.h` from 1 on, multiplied by the depths of the values. Those that
//! decode count strings and numbers.
use crate::text::{Outcome, Text};
use pergidau::json::{self, Item, Kind, OwnedNodes, Step, Value};
use std::cell::RefCell;

const LEVELS: usize = 16;

thread_local! {
    /// A buffer for decoded strings, which callers reuse.
    static ROOM: RefCell<Vec<u8>> = RefCell::new(vec![0; 1 << 16]);
}

pub fn check(text: &Text) -> Outcome {
    Outcome { count: json::check(text.bytes(), LEVELS).is_ok().into(), sum: 0 }
}

pub fn check_by_serde(text: &Text) -> Outcome {
    let read = serde_json::from_slice::<serde::de::IgnoredAny>(text.bytes());
    Outcome { count: read.is_ok().into(), sum: 0 }
}

fn number_of(kind: Kind) -> usize {
    match kind {
        Kind::Null => 1,
        Kind::False => 2,
        Kind::True => 3,
        Kind::Number => 4,
        Kind::String => 5,
        Kind::Array => 6,
        Kind::Object => 7,
    }
}

pub fn values(text: &Text) -> Outcome {
    let mut out = Outcome::default();
    let Ok(text) = std::str::from_utf8(text.bytes()) else {
        return out;
    };
    let mut depth = 1;
    for step in json::steps(text, LEVELS).into_iter().flatten() {
        match step {
            Step::Value(value) => out.add(number_of(value.kind()) * depth),
            Step::Name(_) => {}
            Step::BeginArray | Step::BeginObject => {
                let kind = if step == Step::BeginArray { Kind::Array } else { Kind::Object };
                out.add(number_of(kind) * depth);
                depth += 1;
            }
            Step::EndArray | Step::EndObject => depth -= 1,
        }
    }
    out
}

fn count(value: Value, depth: usize, out: &mut Outcome) {
    out.add(number_of(value.kind()) * depth);
    match value.kind() {
        Kind::Array => value.elements().for_each(|it| count(it, depth + 1, out)),
        Kind::Object => value.members().for_each(|(_, it)| count(it, depth + 1, out)),
        _ => (),
    }
}

pub fn values_by_calls(text: &Text) -> Outcome {
    let mut out = Outcome::default();
    if let Ok(text) = std::str::from_utf8(text.bytes()) {
        if let Ok(value) = json::parse(text, LEVELS) {
            count(value, 1, &mut out);
        }
    }
    out
}

fn count_nodes(item: Item, depth: usize, out: &mut Outcome) {
    let kind = item.kind();
    out.add(number_of(kind) * depth);
    match kind {
        Kind::Array => item.elements().for_each(|it| count_nodes(it, depth + 1, out)),
        Kind::Object => item.members().for_each(|(_, it)| count_nodes(it, depth + 1, out)),
        _ => (),
    }
}

pub fn values_by_nodes(text: &Text) -> Outcome {
    let mut out = Outcome::default();
    if let Ok(text) = std::str::from_utf8(text.bytes()) {
        if let Ok(nodes) = OwnedNodes::parse(text, LEVELS) {
            count_nodes(nodes.root(), 1, &mut out);
        }
    }
    out
}

fn count_of_serde(value: &serde_json::Value, depth: usize, out: &mut Outcome) {
    let kind = match value {
        serde_json::Value::Null => 1,
        serde_json::Value::Bool(value) => 2 + usize::from(*value),
        serde_json::Value::Number(_) => 4,
        serde_json::Value::String(_) => 5,
        serde_json::Value::Array(list) => {
            list.iter().for_each(|it| count_of_serde(it, depth + 1, out));
            6
        }
        serde_json::Value::Object(map) => {
            map.values().for_each(|it| count_of_serde(it, depth + 1, out));
            7
        }
    };
    out.add(kind * depth);
}

pub fn values_by_serde(text: &Text) -> Outcome {
    let mut out = Outcome::default();
    if let Ok(value) = serde_json::from_slice(text.bytes()) {
        count_of_serde(&value, 1, &mut out);
    }
    out
}

fn decode(value: Value, buffer: &mut [u8], out: &mut Outcome) {
    match value.kind() {
        Kind::String => out.add_text(value.as_str_into(buffer).unwrap().unwrap()),
        Kind::Number => match value.as_i64() {
            Some(number) => out.add(number as usize),
            None => out.add_double(value.as_f64().unwrap()),
        },
        _ => (),
    }
}

pub fn decoded(text: &Text) -> Outcome {
    let mut out = Outcome::default();
    let Ok(text) = std::str::from_utf8(text.bytes()) else {
        return out;
    };
    ROOM.with_borrow_mut(|buffer| {
        for step in json::steps(text, LEVELS).into_iter().flatten() {
            if let Step::Value(value) = step {
                decode(value, buffer, &mut out);
            }
        }
    });
    out
}

fn decode_nodes(item: Item, buffer: &mut [u8], out: &mut Outcome) {
    match item.kind() {
        Kind::Array => item.elements().for_each(|it| decode_nodes(it, buffer, out)),
        Kind::Object => item.members().for_each(|(_, it)| decode_nodes(it, buffer, out)),
        _ => decode(item.value(), buffer, out),
    }
}

pub fn decoded_by_nodes(text: &Text) -> Outcome {
    let mut out = Outcome::default();
    if let Ok(text) = std::str::from_utf8(text.bytes()) {
        if let Ok(nodes) = OwnedNodes::parse(text, LEVELS) {
            ROOM.with_borrow_mut(|buffer| decode_nodes(nodes.root(), buffer, &mut out));
        }
    }
    out
}

fn decode_of_serde(value: &serde_json::Value, out: &mut Outcome) {
    match value {
        serde_json::Value::Number(number) => match number.as_i64() {
            Some(number) => out.add(number as usize),
            None => out.add_double(number.as_f64().unwrap()),
        },
        serde_json::Value::String(text) => out.add_text(text),
        serde_json::Value::Array(list) => list.iter().for_each(|it| decode_of_serde(it, out)),
        serde_json::Value::Object(map) => map.values().for_each(|it| decode_of_serde(it, out)),
        _ => (),
    }
}

pub fn decoded_by_serde(text: &Text) -> Outcome {
    let mut out = Outcome::default();
    if let Ok(value) = serde_json::from_slice(text.bytes()) {
        decode_of_serde(&value, &mut out);
    }
    out
}
