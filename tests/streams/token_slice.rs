//! Each call of the stream of a list of tokens, at tokens that are neither `Copy` nor numbers.
use std::alloc::AllocError;
use streams::needed::Needed;
use streams::stream::{Stream, StreamIsPartial};
use streams::token_slice::TokenSlice;

#[derive(Debug, PartialEq, Eq, Drop)]
enum Word {
    Letter(char),
    Comma,
}

const WORDS: [Word; 3] = [Word::Letter('a'), Word::Comma, Word::Letter('b')];

/// Places and searches.
#[test]
fn offsets(rt: HostRuntime) {
    let words = WORDS;
    let input = TokenSlice::new(&words);
    assert_eq!(rt; input.eof_offset(), 3);
    for tokens in [0, 1, 2, 3] {
        assert_eq!(rt; input.offset_at(tokens), Ok(tokens), "offset_at({tokens})");
    }
    for missing in [1, 2, 7] {
        let got = input.offset_at(3 + missing);
        assert_eq!(rt;
            got,
            Err(Needed::new(missing)),
            "offset_at, {missing} missing"
        );
    }
    let got = input.offset_for(|word: &Word| matches!(word, Word::Comma));
    assert_eq!(rt; got, Some(1));
    let got = input.offset_for(|word: &Word| *word == Word::Letter('c'));
    assert_eq!(rt; got, None);
    let mut offsets = input.iter_offsets();
    for (offset, word) in words.iter().enumerate() {
        assert_eq!(rt; offsets.next(), Some((offset, word)));
    }
    assert_eq!(rt; offsets.next(), None);
}

/// The first token, and then the rest.
#[test]
fn tokens(rt: HostRuntime) {
    let words = WORDS;
    let mut input = TokenSlice::new(&words);
    let copy: Result<_, AllocError> = input.clone();
    assert_eq!(rt; copy, Ok(input));
    let start = input.checkpoint();
    assert_eq!(rt; input.next_token(), Some(&words[0]));
    assert_eq!(rt; input.offset_from(&start), 1);
    assert_eq!(rt; input.is_partial(), false);
    let _state = input.complete();
    assert_eq!(rt; input.is_partial(), false);
    assert_eq!(rt; input.finish(), &words[1..]);
    assert_eq!(rt; input.eof_offset(), 0);
    assert_eq!(rt; input.next_token(), None);
}

#[test]
fn slices(rt: HostRuntime) {
    let words = WORDS;
    for offset in [0, 1, 2, 3] {
        let mut input = TokenSlice::new(&words);
        let start = input.checkpoint();
        assert_eq!(rt;
            input.next_slice(offset),
            &words[..offset],
            "next_slice({offset})"
        );
        assert_eq!(rt;
            input,
            TokenSlice::new(&words[offset..]),
            "behind next_slice({offset})"
        );
        input.reset(&start);
        assert_eq!(rt;
            input,
            TokenSlice::new(&words),
            "reset behind next_slice({offset})"
        );
    }
}
