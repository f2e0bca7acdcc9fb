//! Stable parsers on every prefix of a sample of bytes, with their expected results.
use crate::settling::Bytes;
use std::fmt::Debug;
use std::process::Abort;
use stream_bits::bits::Bits;
use streams::partial::Partial;
use streams::stream::{Stream, StreamIsPartial};
use test_support::outcomes::{Kind, outcome_of};
use test_support::rows::Modal;
use test_support::texts::completed;
use winnow_core::parser::Parser;

/// The least number of bytes of the sample for which the result is final, the result, and the
/// number of consumed units.
pub(crate) type Settled<O> = (usize, Result<O, Kind>, usize);

/// A stream of the bytes of a sample that may be cut.
pub(crate) trait OfSample: StreamIsPartial + Copy + Debug {
    /// Returns the stream of `bytes`, with `read` bits already consumed.
    fn of_sample(bytes: &'static [u8], read: usize) -> Self;
}

impl OfSample for Bytes {
    fn of_sample(bytes: &'static [u8], _read: usize) -> Bytes {
        Partial::new(bytes)
    }
}

impl OfSample for Bits<Bytes> {
    fn of_sample(bytes: &'static [u8], read: usize) -> Bits<Bytes> {
        Bits(Partial::new(bytes), read)
    }
}

/// Checks that a prefix that is too short returns `Incomplete`, and that each longer one returns
/// the same result, on partial and on complete input. If bits were already consumed, the first
/// prefix has one byte.
fn settles_behind<I, O, P>(
    rt: &impl Abort,
    name: &str,
    parser: &mut P,
    sample: &'static [u8],
    read: usize,
    want: Settled<O>,
)
where
    I: OfSample,
    O: PartialEq + Debug + Drop + Copy,
    P: Parser<I, O, Modal>,
{
    let (from, answer, taken) = want;
    let first = if read == 0 { 0 } else { 1 };
    for count in first..=sample.len() {
        let input = I::of_sample(&sample[..count], read);
        let (got, rest) = outcome_of::<I, O, Modal, P>(parser, input);
        if count < from {
            let asks = matches!(got, Err(Kind::Incomplete(_)));
            assert_eq!(rt; asks, true, "{name} at {count} bytes of {sample:?}");
        } else {
            let ran = (got, input.eof_offset() - rest.eof_offset());
            assert_eq!(rt; ran, (answer, taken), "{name} at {count} bytes of {sample:?}, cut");
            let whole = completed(input);
            let (got, rest) = outcome_of::<I, O, Modal, P>(parser, whole);
            let ran = (got, whole.eof_offset() - rest.eof_offset());
            assert_eq!(rt; ran, (answer, taken), "{name} at {count} bytes of {sample:?}");
        }
    }
}

/// So on the bytes of a sample.
pub(crate) fn settles_from<O, P>(
    rt: &impl Abort,
    name: &str,
    mut parser: P,
    sample: &'static [u8],
    want: Settled<O>,
)
where
    O: PartialEq + Debug + Drop + Copy,
    P: Parser<Bytes, O, Modal> + Drop,
{
    settles_behind::<Bytes, O, P>(rt, name, &mut parser, sample, 0, want);
}

/// Likewise on the bits of a sample, with `read` bits already consumed.
pub(crate) fn settles_in_bits<O, P>(
    rt: &impl Abort,
    name: &str,
    mut parser: P,
    sample: &'static [u8],
    read: usize,
    want: Settled<O>,
)
where
    O: PartialEq + Debug + Drop + Copy,
    P: Parser<Bits<Bytes>, O, Modal> + Drop,
{
    settles_behind::<Bits<Bytes>, O, P>(rt, name, &mut parser, sample, read, want);
}
