//! Slices of partial input, and the input after them.
use example_callers::slices::{bytes_of_time, escaped_letters, number_and_text};
use std::process::Abort;
use winnow::error::{ErrMode, Needed};
use winnow::stream::{Partial, StreamIsPartial};

#[test]
fn bytes_of_times(rt: HostRuntime) {
    let mut input = Partial::new(b"12:30;".as_slice());
    assert_eq!(rt; bytes_of_time(&mut input), Ok(b"12:30".as_slice()));
    assert_eq!(rt; *input.as_inner(), b";".as_slice());
    let mut input = Partial::new(b"12:30".as_slice());
    assert_eq!(rt; bytes_of_time(&mut input), Err(ErrMode::Incomplete(Needed::new(1))));
    let mut input = Partial::new(b"12:30".as_slice());
    let _was_partial = input.complete();
    assert_eq!(rt; bytes_of_time(&mut input), Ok(b"12:30".as_slice()));
    let mut input = Partial::new(b"12;30;".as_slice());
    assert!(rt; matches!(bytes_of_time(&mut input), Err(ErrMode::Backtrack(_))));
}

#[test]
fn numbers_and_texts(rt: HostRuntime) {
    for (text, number, taken, rest) in [
        ("42;", 42, "42", ";"),
        ("0é", 0, "0", "é"),
        ("07;", 0, "0", "7;"),
        ("4294967295 ", 4294967295, "4294967295", " "),
    ] {
        let mut input = Partial::new(text);
        assert_eq!(rt; number_and_text(&mut input), Ok((number, taken)));
        assert_eq!(rt; *input.as_inner(), rest);
    }
    for text in ["é", "-1;", "4294967296;"] {
        let mut input = Partial::new(text);
        assert!(rt; matches!(number_and_text(&mut input), Err(ErrMode::Backtrack(_))));
    }
}

#[test]
fn letters_with_escapes(rt: HostRuntime) {
    for (text, taken, rest) in [
        (b"a\\;b;".as_slice(), b"a\\;b".as_slice(), b";".as_slice()),
        (b"\\\\\\\\1", b"\\\\\\\\", b"1"),
        (b";", b"", b";"),
    ] {
        let mut input = Partial::new(text);
        assert_eq!(rt; escaped_letters(&mut input), Ok(taken));
        assert_eq!(rt; *input.as_inner(), rest);
    }
    for text in [b"".as_slice(), b"ab", b"ab\\", b"ab\\;"] {
        let mut input = Partial::new(text);
        assert!(rt; matches!(escaped_letters(&mut input), Err(ErrMode::Incomplete(_))));
    }
}
