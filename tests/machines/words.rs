//! Words of machines as parsers.
use machines::counted::Counted;
use machines::digits::{Decimal, Numeral};
use machines::examples::Plain;
use machines::seq::Seq;
use machines::sets::{Byte, Run};
use std::process::Abort;
use stream_errors::empty::EmptyError;
use stream_errors::mode::ErrMode;
use streams::partial::Partial;
use winnow_core::parser::Parser;
use winnow_machines::examples::read_frame;
use winnow_machines::word::word;

type Fails = ErrMode<EmptyError>;

/// The length of the data, a colon, the data, and a comma.
fn frame<'i>(input: &mut &'i [u8]) -> Result<&'i [u8], Fails> {
    let length = Numeral { radix: Decimal, limit: 4096, mark: Byte(b':') };
    word(Seq(Counted(length), Byte(b','))).parse_next(input)
}

/// The frame of each beginning of the text, from complete input.
fn is_whole(rt: &impl Abort, text: &'static [u8], length: usize) {
    for cut in 0..text.len() + 1 {
        let mut input = &text[..cut];
        let read = frame(&mut input);
        if cut < length {
            assert!(rt; matches!(read, Err(ErrMode::Backtrack(_))), "{cut}");
            assert_eq!(rt; input, &text[..cut]);
        } else {
            assert_eq!(rt; read, Ok(&text[..length]));
            assert_eq!(rt; input, &text[length..cut]);
        }
    }
}

#[test]
fn frames_are_read(rt: HostRuntime) {
    let text = b"5:hello,2:no,".as_slice();
    is_whole(&rt, text, 8);
    for cut in 0..text.len() + 1 {
        let mut input = Partial::new(&text[..cut]);
        let read = read_frame(&mut input);
        if cut < 8 {
            assert!(rt; matches!(read, Err(ErrMode::Incomplete(_))), "{cut}");
        } else {
            assert_eq!(rt; read, Ok(b"5:hello,".as_slice()));
            assert_eq!(rt; *input.as_inner(), &text[8..cut]);
        }
    }
}

#[test]
fn other_bytes_backtrack(rt: HostRuntime) {
    for text in [b"5:hello.".as_slice(), b"x".as_slice(), b"5;".as_slice(), b"4097:".as_slice()] {
        let mut input = Partial::new(text);
        assert!(rt; matches!(read_frame(&mut input), Err(ErrMode::Backtrack(_))));
        assert_eq!(rt; *input.as_inner(), text);
        let mut input = text;
        assert!(rt; matches!(frame(&mut input), Err(ErrMode::Backtrack(_))));
        assert_eq!(rt; input, text);
    }
}

/// A word that a longer one may follow.
#[test]
fn open_words_wait(rt: HostRuntime) {
    let mut input = Partial::new(b"ab".as_slice());
    let read: Result<&[u8], Fails> = word(Run(Plain)).parse_next(&mut input);
    assert!(rt; matches!(read, Err(ErrMode::Incomplete(_))));
    let mut input = b"ab".as_slice();
    let read: Result<&[u8], Fails> = word(Run(Plain)).parse_next(&mut input);
    assert_eq!(rt; read, Ok(b"ab".as_slice()));
    let mut input = Partial::new(b"ab\n".as_slice());
    let read: Result<&[u8], Fails> = word(Run(Plain)).parse_next(&mut input);
    assert_eq!(rt; read, Ok(b"ab".as_slice()));
    assert_eq!(rt; *input.as_inner(), b"\n".as_slice());
}
