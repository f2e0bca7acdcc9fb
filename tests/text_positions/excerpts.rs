//! Excerpts as they are printed: the number of the line, and the caret under the column.
use text_positions::excerpt::Excerpt;

/// Bytes, an offset, and what is printed, written by hand. The bar is as far right as the number of
/// the line is long, and the caret has one space before it for each character before the offset.
const SHOWN: &[(&[u8], usize, &str)] = &[
    (b"", 0, "parse error at line 1, column 1\n  |\n1 | \n  | ^"),
    (b"abc", 0, "parse error at line 1, column 1\n  |\n1 | abc\n  | ^"),
    (b"abc", 1, "parse error at line 1, column 2\n  |\n1 | abc\n  |  ^"),
    (b"abc", 3, "parse error at line 1, column 4\n  |\n1 | abc\n  |    ^"),
    (b"abc", 8, "parse error at line 1, column 4\n  |\n1 | abc\n  |    ^"),
    (b"a\n\nb", 2, "parse error at line 2, column 1\n  |\n2 | \n  | ^"),
    (b"\xC3\xA9\xE2\x82\xACx", 5, "parse error at line 1, column 3\n  |\n1 | é€x\n  |   ^"),
    (b"\xFF\xFFx", 2, "parse error at line 1, column 3\n  |\n1 | \u{FFFD}\u{FFFD}x\n  |   ^"),
    (b"\n\n\n\n\n\n\n\nab", 9, "parse error at line 9, column 2\n  |\n9 | ab\n  |  ^"),
    (b"\n\n\n\n\n\n\n\n\nab", 10, "parse error at line 10, column 2\n   |\n10 | ab\n   |  ^"),
];

#[test]
fn excerpts(rt: HostRuntime) {
    for (bytes, at, wanted) in SHOWN {
        let shown = Excerpt::new(*bytes, *at);
        let text = format!(in rt.alloc(); "{shown}").unwrap();
        assert_eq!(rt; text.as_str(), *wanted, "{bytes:?} at {at}");
    }
}

/// Lines 99, 100 and 1000: two, three and four digits.
#[test]
fn excerpts_of_far_lines(rt: HostRuntime) {
    for (lines, wanted) in [
        (98usize, "parse error at line 99, column 1\n   |\n99 | x\n   | ^"),
        (99, "parse error at line 100, column 1\n    |\n100 | x\n    | ^"),
        (999, "parse error at line 1000, column 1\n     |\n1000 | x\n     | ^"),
    ] {
        let mut bytes = Vec::new(rt.alloc());
        for _ in 0..lines {
            assert!(rt; bytes.push(b'\n').is_ok(), "memory is there");
        }
        assert!(rt; bytes.push(b'x').is_ok(), "memory is there");
        let shown = Excerpt::new(bytes.as_slice(), lines);
        let text = format!(in rt.alloc(); "{shown}").unwrap();
        assert_eq!(rt; text.as_str(), wanted, "after {lines} lines");
    }
}
