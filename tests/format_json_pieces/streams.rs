//! Values one by one, with whitespace between them, at every cut.
use format_json_pieces::value::read_next_in_pieces;
use std::alloc::Global;
use std::process::Abort;
use test_json_support::shown::show;
use winnow::error::ErrMode;
use winnow::stream::{Partial, StreamIsPartial};

/// Bytes, and their consecutive values, as written by `show` with a bar after each.
const STREAMS: &[(&[u8], &str)] = &[
    (b"", ""),
    (b" \t\r\n", ""),
    (b"1 2\n", "1|2|"),
    (b" null\ntrue \r\n[1, 2] {\"a\": \"b\"}\n", "null|true|[1,2,]|{'a':'b',}|"),
    (b"[1][2]{}\"a\"\"b\"nullnull", "[1,]|[2,]|{}|'a'|'b'|null|null|"),
    (b"\"\xe2\x82\xac\" 12", "'\u{20ac}'|12|"),
];

/// Reads all values of bytes that arrive in two pieces, the first of `cut` bytes, and writes them.
fn show_all(rt: &impl Abort, alloc: Global, bytes: &[u8], cut: usize) -> String<Global> {
    let mut shown = String::new(alloc);
    let mut input = Partial::new(&bytes[..cut]);
    let mut taken = 0usize;
    for _ in 0..bytes.len() + 2 {
        let before = input.as_inner().len();
        let answer = read_next_in_pieces(alloc, 1, &mut input);
        taken += before - input.as_inner().len();
        match answer {
            Ok(Some(value)) => {
                assert!(rt; show(&value, &mut shown).is_ok());
                assert!(rt; shown.push_str("|").is_ok());
            }
            Ok(None) => {
                assert!(rt; !input.is_partial());
                assert!(rt; input.as_inner().is_empty());
                return shown;
            }
            Err(ErrMode::Incomplete(_)) => {
                assert!(rt; input.is_partial());
                input = Partial::new(&bytes[taken..]);
                input.complete();
            }
            Err(_) => assert!(rt; false, "{bytes:?} {cut}"),
        }
    }
    assert!(rt; false, "{bytes:?} {cut}");
    shown
}

#[test]
fn read_next_at_every_cut(rt: HostRuntime) {
    for (bytes, want) in STREAMS {
        for cut in 0..bytes.len() + 1 {
            let shown = show_all(&rt, rt.alloc(), bytes, cut);
            assert_eq!(rt; shown.as_str(), *want, "{bytes:?} {cut}");
        }
    }
}

#[test]
fn read_next_leaves_what_is_no_value(rt: HostRuntime) {
    for bytes in [b" ]".as_slice(), b"\n01 ".as_slice(), b" \xff".as_slice()] {
        let mut input = Partial::new(bytes);
        let answer = read_next_in_pieces(rt.alloc(), 1, &mut input);
        assert!(rt; matches!(answer, Err(ErrMode::Backtrack(_))));
        assert_eq!(rt; *input.as_inner(), bytes);
    }
}
