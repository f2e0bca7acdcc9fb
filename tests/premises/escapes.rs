//! Letters with escapes, from partial and from longer input.
use example_callers::escapes::{letters_of_both, letters_with_marks};
use std::process::Abort;
use winnow::error::ErrMode;
use winnow::stream::Partial;

#[test]
fn letters_after_a_backslash(rt: HostRuntime) {
    for (piece, longer, letters, rest) in [
        (b"a\\;b;".as_slice(), b"a\\;b; c".as_slice(), b"a\\;b".as_slice(), b"; c".as_slice()),
        (b"a%;", b"a%;b", b"a", b"%;b"),
        (b";", b";\\a", b"", b";\\a"),
    ] {
        let mut first = Partial::new(piece);
        let mut second = Partial::new(longer);
        let (on_piece, on_longer) = letters_of_both(&mut first, &mut second);
        assert_eq!(rt; on_piece, Ok(letters));
        assert_eq!(rt; on_longer, Ok(letters));
        assert_eq!(rt; *second.as_inner(), rest);
    }
}

#[test]
fn letters_after_either_mark(rt: HostRuntime) {
    for (piece, letters) in [
        (b"a%;b\\c;".as_slice(), b"a%;b\\c".as_slice()),
        (b"a\\%;", b"a\\%"),
        (b"%%a/", b"%%a"),
    ] {
        let mut first = Partial::new(piece);
        let mut second = Partial::new(piece);
        let (on_piece, on_longer) = letters_with_marks(&mut first, &mut second);
        assert_eq!(rt; on_piece, Ok(letters));
        assert_eq!(rt; on_longer, Ok(letters));
    }
}

#[test]
fn letters_that_are_cut_off(rt: HostRuntime) {
    for piece in [b"".as_slice(), b"a", b"a\\", b"a\\;"] {
        let mut first = Partial::new(piece);
        let mut second = Partial::new(b"a\\;b;".as_slice());
        let (on_piece, on_longer) = letters_of_both(&mut first, &mut second);
        assert!(rt; matches!(on_piece, Err(ErrMode::Incomplete(_))));
        assert_eq!(rt; on_longer, Ok(b"a\\;b".as_slice()));
    }
}
