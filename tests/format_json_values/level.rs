//! The safe level, with the documented stack size.
use format_json_values::value::{SAFE_DEPTH, parse_value};
use std::alloc::Global;
use std::thread::Builder;

/// Repeats `first` `level` times, then a value, then `last` as often.
fn nested(alloc: Global, first: &str, last: &str, level: usize) -> Option<String<Global>> {
    let mut text = String::new(alloc);
    for _ in 0..level {
        text.push_str(first).ok()?;
    }
    text.push_str("1").ok()?;
    for _ in 0..level {
        text.push_str(last).ok()?;
    }
    Some(text)
}

/// Whether the text is read at the safe level.
fn is_read(alloc: Global, first: &str, last: &str, level: usize) -> bool {
    match nested(alloc, first, last, level) {
        Some(text) => parse_value(alloc, SAFE_DEPTH, text.as_str()).is_ok(),
        None => false,
    }
}

#[test]
fn parse_value_at_the_safe_level(rt: HostRuntime) {
    let alloc = rt.alloc();
    let thread = Builder::new().stack_size(2 << 20).spawn(&rt, move || {
        is_read(alloc, "[", "]", SAFE_DEPTH)
            && is_read(alloc, "{\"a\":", "}", SAFE_DEPTH)
            && !is_read(alloc, "[", "]", SAFE_DEPTH + 1)
    });
    assert!(rt; thread.is_ok_and(|it| it.join(&rt)));
}
