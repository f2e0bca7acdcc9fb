//! The safe level, with the documented stack size.
use format_toml::lines::parse_lines;
use format_toml::values::SAFE_DEPTH;
use std::alloc::Global;
use std::thread::Builder;

/// A line with a value in so many arrays or inline tables.
fn nested(alloc: Global, level: usize, opens: &str, closes: &str) -> Option<String<Global>> {
    let mut text = String::from_str(alloc, "a = ").ok()?;
    for _ in 0..level {
        text.push_str(opens).ok()?;
    }
    text.push_str("1").ok()?;
    for _ in 0..level {
        text.push_str(closes).ok()?;
    }
    Some(text)
}

/// Whether the line is read at the safe level.
fn is_read(alloc: Global, level: usize, opens: &str, closes: &str) -> bool {
    match nested(alloc, level, opens, closes) {
        Some(text) => parse_lines(alloc, SAFE_DEPTH, text.as_str()).is_ok(),
        None => false,
    }
}

#[test]
fn parse_lines_at_the_safe_level(rt: HostRuntime) {
    let alloc = rt.alloc();
    let thread = Builder::new().stack_size(2 << 20).spawn(&rt, move || {
        is_read(alloc, SAFE_DEPTH, "[", "]")
            && !is_read(alloc, SAFE_DEPTH + 1, "[", "]")
            && is_read(alloc, SAFE_DEPTH, "{b=", "}")
            && !is_read(alloc, SAFE_DEPTH + 1, "{b=", "}")
    });
    assert!(rt; thread.is_ok_and(|it| it.join(&rt)));
}
