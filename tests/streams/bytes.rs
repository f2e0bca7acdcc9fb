//! Each call of the stream of bytes.
use streams::needed::Needed;
use streams::stream::{Stream, StreamIsPartial};

/// Takes the first byte of `ab;c`, and then the rest.
#[test]
fn each_call(rt: HostRuntime) {
    let mut input = b"ab;c".as_slice();
    let start = input.checkpoint();
    assert_eq!(rt; input.eof_offset(), 4);
    assert_eq!(rt; input.next_token(), Some(b'a'));
    assert_eq!(rt; input.offset_from(&start), 1);
    assert_eq!(rt; input.offset_for(|b: u8| b == b';'), Some(1));
    assert_eq!(rt; input.offset_for(|b: u8| b == b'x'), None);
    assert_eq!(rt; input.offset_at(3), Ok(3));
    assert_eq!(rt; input.offset_at(5), Err(Needed::new(2)));
    assert_eq!(rt; input.is_partial(), false);
    let _state = input.complete();
    assert_eq!(rt; input.is_partial(), false);
    assert_eq!(rt; input.finish(), b"b;c".as_slice());
    assert_eq!(rt; input.eof_offset(), 0);
    assert_eq!(rt; input.next_token(), None);
    let mut offsets = b"xy".as_slice().iter_offsets();
    assert_eq!(rt; offsets.next(), Some((0, b'x')));
    assert_eq!(rt; offsets.next(), Some((1, b'y')));
    assert_eq!(rt; offsets.next(), None);
}

#[test]
fn slices(rt: HostRuntime) {
    let mut input = b"ab;c".as_slice();
    let start = input.checkpoint();
    assert_eq!(rt; input.next_slice(2), b"ab".as_slice());
    assert_eq!(rt; input, b";c".as_slice());
    input.reset(&start);
    assert_eq!(rt; input, b"ab;c".as_slice());
    assert_eq!(rt; input.next_slice(4), b"ab;c".as_slice());
    assert_eq!(rt; input.next_token(), None);
}

/// Searches texts of every length up to 64 for a byte at every offset.
#[test]
fn runs_of_each_length(rt: HostRuntime) {
    for place in 0..64 {
        let mut text = [b'a'; 64];
        text[place] = b';';
        for length in 0..65 {
            let input = &text[..length];
            let wanted = if place < length { Some(place) } else { None };
            assert_eq!(rt; input.offset_for(|b: u8| b == b';'), wanted, "{place} of {length}");
        }
    }
}
