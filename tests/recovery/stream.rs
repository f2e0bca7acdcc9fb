//! The stream that records errors.
use std::alloc::Global;
use stream_errors::empty::EmptyError;
use stream_errors::parser_error::ParserError;
use stream_errors::recover::Recover;
use stream_recovery::recoverable::Recoverable;
use streams::locating::LocatingSlice;
use streams::partial::Partial;
use streams::stream::{Location, Stream, StreamIsPartial};
use test_support::refusing::Refusing;

/// Tokens, slices, offsets and places are those of the stream inside.
#[test]
fn recoverable_reads(rt: HostRuntime) {
    let mut input: Recoverable<&str, EmptyError> = Recoverable::new(rt.alloc(), "aé,b");
    assert_eq!(rt; input.eof_offset(), 5);
    assert_eq!(rt; input.offset_for(|c: char| c == ','), Some(3));
    assert_eq!(rt; input.offset_at(2), Ok(3));
    let start = input.checkpoint();
    assert_eq!(rt; input.next_token(), Some('a'));
    assert_eq!(rt; input.next_slice(2), "é");
    assert_eq!(rt; input.offset_from(&start), 3);
    assert_eq!(rt; input.finish(), ",b");
    assert_eq!(rt; input.next_token(), None);
    input.reset(&start);
    let mut letters = 0;
    for (offset, _) in input.iter_offsets() {
        letters += 1;
        assert!(rt; offset < 5);
    }
    assert_eq!(rt; letters, 4);
    assert!(rt; !input.is_partial());
    let (rest, errors) = input.into_parts();
    assert_eq!(rt; rest, "aé,b");
    assert!(rt; errors.is_empty());
}

/// The flag and the place are those of the stream inside.
#[test]
fn recoverable_wraps(rt: HostRuntime) {
    type Inner = Partial<LocatingSlice<&'static str>>;
    type Wrapped = Recoverable<Inner, EmptyError>;
    let inner: Inner = Partial::new(LocatingSlice::new("ab"));
    let mut input: Wrapped = Recoverable::new(rt.alloc(), inner);
    assert!(rt; <Wrapped as StreamIsPartial>::is_partial_supported());
    assert!(rt; input.is_partial());
    let state = input.complete();
    assert!(rt; !input.is_partial());
    input.restore_partial(state);
    assert!(rt; input.is_partial());
    let _token = input.next_token();
    assert_eq!(rt; (input.current_token_start(), input.previous_token_end()), (1, 1));
}

/// Errors are recorded in order, and going back takes none of them back.
#[test]
fn recoverable_records(rt: HostRuntime) {
    type Text = Recoverable<&'static str, EmptyError>;
    assert!(rt; <Text as Recover<EmptyError>>::is_recovery_supported());
    assert!(rt; !<&str as Recover<EmptyError>>::is_recovery_supported());
    assert!(rt; !<Partial<Text> as Recover<EmptyError>>::is_recovery_supported());
    let mut input: Text = Recoverable::new(rt.alloc(), "ab");
    let start = input.checkpoint();
    let _token = input.next_token();
    let error = EmptyError::from_input(&input);
    let place = input.checkpoint();
    assert!(rt; input.record_err(&start, &place, error).is_ok());
    input.reset(&start);
    assert!(rt; input.push_err(EmptyError::from_input(&input)).is_ok());
    let (rest, errors) = input.into_parts();
    assert_eq!(rt; rest, "ab");
    assert_eq!(rt; errors.len(), 2);
}

/// An error that cannot be stored is returned to the caller; recording it as the error of a parser
/// is out of memory.
#[test]
fn recoverable_refuses(rt: HostRuntime) {
    let heap = Refusing::always_from(rt.alloc(), 0);
    let mut input: Recoverable<&str, EmptyError, &Refusing<Global>> = Recoverable::new(&heap, "ab");
    let error = EmptyError::from_input(&input);
    let handed = input.push_err(error);
    assert!(rt; matches!(handed, Err(_)));
    let place = input.checkpoint();
    let error = EmptyError::from_input(&input);
    match input.record_err(&place, &place, error) {
        Ok(()) => assert!(rt; false, "there is no memory"),
        Err(error) => {
            assert!(rt; ParserError::<Recoverable<&str, EmptyError, &Refusing<Global>>>::is_memory(&error));
        }
    }
    let (rest, errors) = input.into_parts();
    assert_eq!(rt; rest, "ab");
    assert!(rt; errors.is_empty());
}
