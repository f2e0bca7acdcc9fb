//! TOML readers. Each value is counted, tables and arrays too; the sum is of the kinds, numbered as in
//! `pergidau.h` from 1 on, multiplied by the depths of the values. Those that decode count strings,
//! numbers, dates and times.
use crate::text::{Outcome, Text};
use pergidau::toml::{self, Item, Node, Value};
use std::cell::RefCell;

const LEVELS: usize = 8;

thread_local! {
    /// Buffers for the names and the nodes of a document, which callers reuse.
    static ROOM: RefCell<(Vec<u8>, Vec<Node>)> =
        RefCell::new((vec![0; 1 << 20], vec![Node::default(); 1 << 16]));
}

fn number_of(value: Value) -> usize {
    match value {
        Value::Table => 1,
        Value::Array => 2,
        Value::String(_) => 3,
        Value::Integer(_) => 4,
        Value::Float(_) => 5,
        Value::Boolean(_) => 6,
        Value::OffsetDateTime(..) => 7,
        Value::LocalDateTime(..) => 8,
        Value::LocalDate(_) => 9,
        Value::LocalTime(_) => 10,
        _ => 0,
    }
}

fn count(item: Item, depth: usize, out: &mut Outcome) {
    out.add(number_of(item.value()) * depth);
    item.children().for_each(|it| count(it, depth + 1, out));
}

/// Visits the root of a document, if the text is one.
fn visited(text: &Text, visit: impl Fn(Item, &mut Outcome)) -> Outcome {
    let mut out = Outcome::default();
    let Ok(text) = std::str::from_utf8(text.bytes()) else {
        return out;
    };
    ROOM.with_borrow_mut(|(names, nodes)| {
        if let Ok(document) = toml::parse(text, LEVELS, names, nodes) {
            visit(document.root(), &mut out);
        }
    });
    out
}

pub fn document(text: &Text) -> Outcome {
    visited(text, |root, out| count(root, 1, out))
}

fn add_date(year: u16, month: u8, day: u8, out: &mut Outcome) {
    out.add(usize::from(year) << 9 | usize::from(month) << 5 | usize::from(day));
}

fn add_time(hour: u8, minute: u8, second: u8, out: &mut Outcome) {
    out.add(usize::from(hour) << 12 | usize::from(minute) << 6 | usize::from(second));
}

fn decode(item: Item, out: &mut Outcome) {
    match item.value() {
        Value::String(text) => out.add_text(text),
        Value::Integer(number) => out.add(number as usize),
        Value::Float(_) => out.add_double(item.as_f64().unwrap()),
        Value::OffsetDateTime(date, time, _) | Value::LocalDateTime(date, time) => {
            add_date(date.year, date.month, date.day, out);
            add_time(time.hour, time.minute, time.second, out);
        }
        Value::LocalDate(date) => add_date(date.year, date.month, date.day, out),
        Value::LocalTime(time) => add_time(time.hour, time.minute, time.second, out),
        _ => item.children().for_each(|it| decode(it, out)),
    }
}

pub fn decoded(text: &Text) -> Outcome {
    visited(text, decode)
}

fn number_of_time(it: &::toml::value::Datetime) -> usize {
    match (it.date.is_some(), it.time.is_some()) {
        (true, true) => 8 - usize::from(it.offset.is_some()),
        (is_date, _) => 10 - usize::from(is_date),
    }
}

fn count_of_toml(value: &::toml::Value, depth: usize, out: &mut Outcome) {
    let kind = match value {
        ::toml::Value::Table(table) => {
            table.values().for_each(|it| count_of_toml(it, depth + 1, out));
            1
        }
        ::toml::Value::Array(list) => {
            list.iter().for_each(|it| count_of_toml(it, depth + 1, out));
            2
        }
        ::toml::Value::String(_) => 3,
        ::toml::Value::Integer(_) => 4,
        ::toml::Value::Float(_) => 5,
        ::toml::Value::Boolean(_) => 6,
        ::toml::Value::Datetime(it) => number_of_time(it),
    };
    out.add(kind * depth);
}

pub fn document_by_toml(text: &Text) -> Outcome {
    let mut out = Outcome::default();
    if let Ok(value) = ::toml::from_slice(text.bytes()) {
        count_of_toml(&value, 1, &mut out);
    }
    out
}

fn decode_of_toml(value: &::toml::Value, out: &mut Outcome) {
    match value {
        ::toml::Value::Table(table) => table.values().for_each(|it| decode_of_toml(it, out)),
        ::toml::Value::Array(list) => list.iter().for_each(|it| decode_of_toml(it, out)),
        ::toml::Value::String(text) => out.add_text(text),
        ::toml::Value::Integer(number) => out.add(*number as usize),
        ::toml::Value::Float(number) => out.add_double(*number),
        ::toml::Value::Boolean(_) => (),
        ::toml::Value::Datetime(it) => {
            it.date.iter().for_each(|it| add_date(it.year, it.month, it.day, out));
            it.time.iter().for_each(|it| add_time(it.hour, it.minute, it.second, out));
        }
    }
}

pub fn decoded_by_toml(text: &Text) -> Outcome {
    let mut out = Outcome::default();
    if let Ok(value) = ::toml::from_slice(text.bytes()) {
        decode_of_toml(&value, &mut out);
    }
    out
}
