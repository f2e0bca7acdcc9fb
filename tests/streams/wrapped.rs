//! Streams that are made of a stream: the flag, and the place.
use std::process::Abort;
use streams::byte_stream::{ByteStream, each_is_a_byte};
use streams::locating::LocatingSlice;
use streams::needed::Needed;
use streams::partial::Partial;
use streams::stream::{Location, Stream, StreamIsPartial, UpdateSlice};

/// The flag is set, cleared, put back and cleared again, and no reset changes it.
fn flagged<I: StreamIsPartial>(rt: &impl Abort, mut input: I) {
    assert_eq!(rt; I::is_partial_supported(), true);
    let start = input.checkpoint();
    assert_eq!(rt; input.is_partial(), true);
    let state = input.complete();
    assert_eq!(rt; input.is_partial(), false, "complete");
    input.reset(&start);
    assert_eq!(rt;
        input.is_partial(),
        false,
        "a reset does not restore the flag"
    );
    input.restore_partial(state);
    assert_eq!(rt; input.is_partial(), true, "restore_partial");
    let _first = input.next_token();
    assert_eq!(rt; input.is_partial(), true, "behind a token");
    let _rest = input.finish();
    assert_eq!(rt; input.is_partial(), true, "at the end");
}

/// The offset after a token, back at the start, and after it again.
fn goes_back<I: Location>(rt: &impl Abort, mut input: I) {
    let start = input.checkpoint();
    let _first = input.next_token();
    assert_eq!(rt; input.current_token_start(), 1);
    assert_eq!(rt; input.offset_from(&start), 1);
    input.reset(&start);
    assert_eq!(rt; input.current_token_start(), 0);
    assert_eq!(rt; input.offset_from(&start), 0);
}

/// A stream in both wrappers, one in the other.
fn both<I: StreamIsPartial + Copy>(rt: &impl Abort, input: I) {
    flagged(rt, Partial::new(LocatingSlice::new(input)));
    flagged(rt, LocatingSlice::new(Partial::new(input)));
    let located = LocatingSlice::new(Partial::new(input));
    assert_eq!(rt; located.is_partial(), true, "a located partial stream");
    goes_back(rt, LocatingSlice::new(input));
    goes_back(rt, Partial::new(LocatingSlice::new(input)));
    let inner = Partial::new(input).into_inner();
    assert_eq!(rt; inner.eof_offset(), input.eof_offset(), "into_inner");
}

/// The places in `aé;`, of one byte, two and one.
fn located<I: Location + Stream<Token = char>>(rt: &impl Abort, mut input: I) {
    assert_eq!(rt; input.current_token_start(), 0);
    assert_eq!(rt; input.next_token(), Some('a'));
    assert_eq!(rt; input.previous_token_end(), 1);
    assert_eq!(rt; input.next_token(), Some('é'));
    assert_eq!(rt; input.current_token_start(), 3);
    assert_eq!(rt; input.eof_offset(), 1);
    assert_eq!(rt; input.offset_for(|c: char| c == ';'), Some(0));
    assert_eq!(rt; input.offset_at(2), Err(Needed::Unknown));
    let _rest = input.finish();
    assert_eq!(rt; input.current_token_start(), 4);
    assert_eq!(rt; input.next_token(), None);
    assert_eq!(rt; input.previous_token_end(), 4);
}

#[test]
fn nested(rt: HostRuntime) {
    both(&rt, "aé;");
    both(&rt, b"ab".as_slice());
    located(&rt, LocatingSlice::new("aé;"));
    located(&rt, LocatingSlice::new(LocatingSlice::new("aé;")));
    located(&rt, Partial::new(LocatingSlice::new("aé;")));
    located(&rt, LocatingSlice::new(Partial::new("aé;")));
}

#[test]
fn other_slices(rt: HostRuntime) {
    let cut = Partial::new(b"abc".as_slice()).update_slice(b"b".as_slice());
    assert_eq!(rt; cut.is_partial(), true);
    assert_eq!(rt; cut.into_inner(), b"b".as_slice());
    assert_eq!(rt; "abc".update_slice("é"), "é");
}

/// A stream over what was taken begins where that did.
fn taken_again<I: Location + UpdateSlice + Copy>(rt: &impl Abort, mut input: I) {
    let _first = input.next_token();
    let mut rest = input;
    let slice = rest.finish();
    let again = rest.update_slice(slice);
    assert_eq!(rt; again.current_token_start(), input.current_token_start());
    assert_eq!(rt; again.eof_offset(), input.eof_offset());
}

#[test]
fn over_slices(rt: HostRuntime) {
    let input = b"abc".as_slice();
    taken_again(&rt, Partial::new(LocatingSlice::new(input)));
    taken_again(
        &rt,
        Partial::new(LocatingSlice::new(LocatingSlice::new(input))),
    );
    // With a slice longer than the consumed input an offset starts at 0.
    let longer = LocatingSlice::new(b"a".as_slice()).update_slice(input);
    assert_eq!(rt; longer.current_token_start(), 0);
    assert_eq!(rt; longer.eof_offset() > 1, true);
}

#[test]
fn shows_bytes(rt: HostRuntime) {
    // Calls that claim only what their contracts say, and do nothing.
    let input = b"abc".as_slice();
    each_is_a_byte(b"abc");
    input.shows_bytes();
    Partial::new(input).shows_bytes();
    LocatingSlice::new(input).shows_bytes();
    assert_eq!(rt; input, b"abc".as_slice());
}
