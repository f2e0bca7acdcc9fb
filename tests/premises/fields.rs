//! Fields of bits, from partial and from longer input.
use example_callers::fields::header_of_both;
use std::process::Abort;
use winnow::error::{EmptyError, ErrMode};
use winnow::stream::Partial;

/// Errors with a mode.
type Error = ErrMode<EmptyError>;

#[test]
fn fields_of_a_byte(rt: HostRuntime) {
    for (piece, longer, fields, rest) in [
        (b"\x12".as_slice(), b"\x12\x34".as_slice(), (1, 2), b"\x34".as_slice()),
        (b"\xF0\x00", b"\xF0\x00", (15, 0), b"\x00"),
    ] {
        let mut first = Partial::new(piece);
        let mut second = Partial::new(longer);
        let both = header_of_both::<_, Error, Error>(&mut first, &mut second);
        assert_eq!(rt; both, (Ok(fields), Ok(fields)));
        assert_eq!(rt; *second.as_inner(), rest);
    }
}

#[test]
fn fields_that_are_cut_off(rt: HostRuntime) {
    let mut first = Partial::new(b"".as_slice());
    let mut second = Partial::new(b"\x12".as_slice());
    let (on_piece, on_longer) = header_of_both::<_, Error, Error>(&mut first, &mut second);
    assert!(rt; matches!(on_piece, Err(ErrMode::Incomplete(_))));
    assert_eq!(rt; on_longer, Ok((1, 2)));
}
