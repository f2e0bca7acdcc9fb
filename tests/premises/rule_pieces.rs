//! Words that a function reads as parts of a sequence, from partial and from longer input.
use example_callers::rule_pieces::words_of_both;
use std::process::Abort;
use winnow::error::{ErrMode, Needed};
use winnow::stream::{Partial, StreamIsPartial};

#[test]
fn words_with_a_mark(rt: HostRuntime) {
    for (piece, longer, rest) in [
        (b"key=word;".as_slice(), b"key=word;".as_slice(), b";".as_slice()),
        (b"a=b1", b"a=b1=c", b"1=c"),
        (b"a=b=", b"a=b=cd", b"=cd"),
    ] {
        let mut first = Partial::new(piece);
        let mut second = Partial::new(longer);
        let (on_piece, on_longer) = words_of_both(&mut first, &mut second);
        assert!(rt; on_piece.is_ok());
        assert_eq!(rt; on_longer, on_piece);
        assert_eq!(rt; *second.as_inner(), rest);
        let mut whole = Partial::new(longer);
        let _was_partial = whole.complete();
        let mut first = Partial::new(piece);
        let (_, on_whole) = words_of_both(&mut first, &mut whole);
        assert_eq!(rt; on_whole, on_piece);
    }
}

#[test]
fn words_that_are_cut_off(rt: HostRuntime) {
    let words = (b"key".as_slice(), b"word".as_slice());
    for piece in [b"".as_slice(), b"key", b"key=", b"key=wor"] {
        let mut first = Partial::new(piece);
        let mut second = Partial::new(b"key=word;".as_slice());
        let (on_piece, on_longer) = words_of_both(&mut first, &mut second);
        assert!(rt; matches!(on_piece, Err(ErrMode::Incomplete(_))));
        assert_eq!(rt; on_longer, Ok(words));
    }
    let mut first = Partial::new(b"key=wor".as_slice());
    let mut second = Partial::new(b"key=wor".as_slice());
    let (on_piece, on_longer) = words_of_both(&mut first, &mut second);
    assert_eq!(rt; on_piece, Err(ErrMode::Incomplete(Needed::new(1))));
    assert_eq!(rt; on_longer, on_piece);
}

#[test]
fn words_that_are_refused(rt: HostRuntime) {
    for piece in [b"1=b;".as_slice(), b"a-b;", b"a=;"] {
        let mut first = Partial::new(piece);
        let mut second = Partial::new(piece);
        let (on_piece, on_longer) = words_of_both(&mut first, &mut second);
        assert!(rt; matches!(on_piece, Err(ErrMode::Backtrack(_))));
        assert_eq!(rt; on_longer, on_piece);
    }
}
