//! Each call of the stream of text, at characters of one, two, three and four bytes.
use streams::needed::Needed;
use streams::stream::{Stream, StreamIsPartial};

const TEXT: &'static str = "aé€𝄞";

/// Places and searches.
#[test]
fn offsets(rt: HostRuntime) {
    for (tokens, offset) in [(0, 0), (1, 1), (2, 3), (3, 6), (4, 10)] {
        assert_eq!(rt; TEXT.offset_at(tokens), Ok(offset), "offset_at({tokens})");
    }
    for tokens in [5, 10, usize::MAX] {
        let got = TEXT.offset_at(tokens);
        assert_eq!(rt; got, Err(Needed::Unknown), "offset_at({tokens})");
    }
    for (token, offset) in [('a', 0), ('é', 1), ('€', 3), ('𝄞', 6)] {
        let got = TEXT.offset_for(move |c: char| c == token);
        assert_eq!(rt; got, Some(offset), "offset_for {token}");
    }
    assert_eq!(rt; TEXT.offset_for(|c: char| c == 'b'), None);
    let mut offsets = TEXT.iter_offsets();
    for want in [(0, 'a'), (1, 'é'), (3, '€'), (6, '𝄞')] {
        assert_eq!(rt; offsets.next(), Some(want));
    }
    assert_eq!(rt; offsets.next(), None);
}

/// The characters one by one, and then all of them.
#[test]
fn tokens(rt: HostRuntime) {
    let mut input = TEXT;
    let start = input.checkpoint();
    for (token, passed, left) in [('a', 1, 9), ('é', 3, 7), ('€', 6, 4), ('𝄞', 10, 0)] {
        assert_eq!(rt; input.next_token(), Some(token));
        assert_eq!(rt;
            input.offset_from(&start),
            passed,
            "offset_from, behind {token}"
        );
        assert_eq!(rt; input.eof_offset(), left, "eof_offset, behind {token}");
    }
    assert_eq!(rt; input.next_token(), None);
    input.reset(&start);
    assert_eq!(rt; input.finish(), TEXT);
    assert_eq!(rt; input.eof_offset(), 0);
    assert_eq!(rt; input.is_partial(), false);
    let _state = input.complete();
    assert_eq!(rt; input.is_partial(), false);
}

#[test]
fn slices(rt: HostRuntime) {
    for (offset, front, rest) in [
        (0, "", TEXT),
        (1, "a", "é€𝄞"),
        (3, "aé", "€𝄞"),
        (6, "aé€", "𝄞"),
        (10, TEXT, ""),
    ] {
        let mut input = TEXT;
        assert_eq!(rt; input.next_slice(offset), front, "next_slice({offset})");
        assert_eq!(rt; input, rest, "behind next_slice({offset})");
    }
}
