//! Lines of a large file, read one at a time into one buffer, and the line of an offset.

use super::numbers::read_temperature;
use std::alloc::Global;
use std::io::{self, BufRead};
use winnow::error::{EmptyError, ErrMode};
use winnow::prelude::*;
use winnow::stream::{Excerpt, Position};
use winnow::token::take_while;

/// How many lines of a reader are temperatures, and how many are not.
fn count_lines_of<R: BufRead>(alloc: Global, reader: &mut R) -> io::Result<(u64, u64)> {
    let mut line = String::new(alloc);
    let (mut good, mut bad) = (0u64, 0u64);
    for _ in 0..u64::MAX {
        line.clear();
        if reader.read_line(&mut line)? == 0 {
            break;
        }
        let mut input = line.as_str();
        match read_temperature(&mut input) {
            Ok(_) if input == "\n" || input.is_empty() => good += 1,
            _ => bad += 1,
        }
    }
    Ok((good, bad))
}

#[test]
fn lines_of_a_reader(rt: HostRuntime) -> io::Result<()> {
    let mut reader = b"12\n99\n-3\nx\n7".as_slice();
    assert_eq!(rt; count_lines_of(rt.alloc(), &mut reader)?, (3, 2));
    let mut reader = b"".as_slice();
    assert_eq!(rt; count_lines_of(rt.alloc(), &mut reader)?, (0, 0));
    Ok(())
}

/// Finds the first character that is not a digit or a line feed.
fn first_stray(text: &str) -> Option<Excerpt<'_>> {
    let mut input = text;
    let passed: Result<&str, ErrMode<EmptyError>> =
        take_while(0.., ('0'..='9', '\n')).parse_next(&mut input);
    let offset = passed.ok()?.len();
    if offset == text.len() {
        return None;
    }
    Some(Excerpt::new(text.as_bytes(), offset))
}

#[test]
fn place_of_a_stray(rt: HostRuntime) {
    assert!(rt; first_stray("12\n7\n").is_none());
    match first_stray("12\n7 8\r\n") {
        None => assert!(rt; false),
        Some(stray) => {
            assert_eq!(rt; stray.position(), Position { line: 2, column: 2 });
            assert_eq!(rt; stray.line(), b"7 8".as_slice());
            let text = format!(in rt.alloc(); "{stray}");
            let lines = "parse error at line 2, column 2\n  |\n2 | 7 8\n  |  ^";
            assert!(rt; matches!(text, Ok(text) if text.as_str() == lines));
        }
    }
}
