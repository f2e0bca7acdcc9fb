//! Common helpers: streams made of bytes, and comparisons whose messages name the bytes.
use std::fmt::Debug;
use std::process::Abort;
use stream_errors::parser_error::ParserError;
use streams::byte_stream::ByteStream;
use streams::locating::LocatingSlice;
use streams::partial::Partial;
use streams::stream::{Stream, StreamIsPartial};
use test_support::outcomes::{Ending, Kind, ending_of, outcome_of};
use test_support::rows::ModalAt;
use test_support::texts::completed;
use winnow_core::parser::Parser;

/// Bytes, and errors with a mode that hold them.
pub(crate) type Bytes = &'static [u8];

pub(crate) type AtBytes = ModalAt<Bytes>;

/// A stream that the rows of a test run on.
pub(crate) trait OfBytes: StreamIsPartial + ByteStream + PartialEq + Debug {
    /// The stream of `bytes`, cut where the stream can be.
    fn of_bytes(bytes: Bytes) -> Self;
}

impl OfBytes for &'static [u8] {
    fn of_bytes(bytes: Bytes) -> Bytes {
        bytes
    }
}

impl<I: OfBytes> OfBytes for Partial<I> {
    fn of_bytes(bytes: Bytes) -> Partial<I> {
        Partial::new(I::of_bytes(bytes))
    }
}

impl<I: OfBytes> OfBytes for LocatingSlice<I> {
    fn of_bytes(bytes: Bytes) -> LocatingSlice<I> {
        LocatingSlice::new(I::of_bytes(bytes))
    }
}

/// Checks a result of `name` at `bytes`.
pub(crate) fn agree<T: PartialEq + Debug + Drop>(
    rt: &impl Abort,
    name: &str,
    bytes: &[u8],
    got: T,
    want: T,
) {
    assert_eq!(rt; got, want, "{name} at {bytes:?}");
}

/// Checks that a parser returns `want` and leaves `left` bytes, on complete and on partial input.
pub(crate) fn answers<I, O, E, P>(
    rt: &impl Abort,
    name: &str,
    parser: &mut P,
    bytes: Bytes,
    want: O,
    left: usize,
)
where
    I: OfBytes,
    O: PartialEq + Debug + Copy,
    E: ParserError<I>,
    P: Parser<I, O, E>,
{
    for input in [completed(I::of_bytes(bytes)), I::of_bytes(bytes)] {
        let (answer, rest) = outcome_of::<I, O, E, P>(parser, input);
        agree(rt, name, bytes, (answer, rest.eof_offset()), (Ok(want), left));
    }
}

/// A run of a parser on bytes ends so where they are whole, and so where they are cut.
pub(crate) fn ends<I, O, E, P>(
    rt: &impl Abort,
    name: &str,
    parser: &mut P,
    bytes: Bytes,
    as_whole: Ending,
    as_cut: Ending,
)
where
    I: OfBytes,
    O: Drop,
    E: ParserError<I>,
    P: Parser<I, O, E>,
{
    let got = ending_of::<I, O, E, P>(parser, completed(I::of_bytes(bytes)));
    agree(rt, name, bytes, got, as_whole);
    let input = I::of_bytes(bytes);
    let want = if input.is_partial() { as_cut } else { as_whole };
    agree(rt, name, bytes, ending_of::<I, O, E, P>(parser, input), want);
}

/// Checks how a parser ends on every prefix of `sample`, the empty one included: by its row, as
/// complete and as partial input. On partial input it returns `Incomplete` or ends as on the whole
/// sample.
pub(crate) fn sweep<I, O, E, P>(
    rt: &impl Abort,
    name: &str,
    parser: &mut P,
    sample: Bytes,
    rows: &[(Ending, Ending)],
)
where
    I: OfBytes,
    O: Drop,
    E: ParserError<I>,
    P: Parser<I, O, E>,
{
    let all = ending_of::<I, O, E, P>(parser, completed(I::of_bytes(sample)));
    agree(rt, name, sample, rows.len(), sample.len() + 1);
    for (count, (as_whole, as_cut)) in rows.iter().enumerate() {
        let beginning = &sample[..count];
        ends::<I, O, E, P>(rt, name, parser, beginning, *as_whole, *as_cut);
        agree(rt, name, beginning, as_cut.is_incomplete() || *as_cut == all, true);
    }
}

/// The ending of a call that fails with `kind` after `taken` bytes.
pub(crate) fn fails_behind(kind: Kind, taken: usize) -> Ending {
    Ending::Fails(kind, taken)
}
