//! Partial input, and bytes as numbers.

use crate::forms::read_name;
use test_support::rows::Modal;
use winnow::binary::impls::BeU16;
use winnow::binary::{be_u32, length_take, u8};
use winnow::error::{EmptyError, ErrMode, Needed};
use winnow::prelude::*;
use winnow::stream::{ByteStream, Partial};

/// The head of a frame.
#[derive(Drop)]
pub struct Head {
    /// Of which kind the frame is.
    pub kind: u8,
    /// How many bytes it has.
    pub length: u32,
}

/// Reads the head of a frame, once all of it is there.
pub fn read_head(input: &mut Partial<&[u8]>) -> Result<Head, ErrMode<EmptyError>> {
    let kind = u8(input)?;
    let length = be_u32(input)?;
    Ok(Head { kind, length })
}

/// Reads a frame: its kind, and its length-prefixed bytes; over any stream of bytes.
pub fn read_frame<I, E>(input: &mut I) -> Result<(u8, I::Slice), E>
where
    I: StreamIsPartial + ByteStream,
    E: ParserError<I>,
{
    let kind = u8(input)?;
    let bytes = length_take(BeU16).parse_next(input)?;
    Ok((kind, bytes))
}

#[test]
fn pieces(rt: HostRuntime) {
    let head = read_head(&mut Partial::new([7, 0, 0, 1, 0].as_slice())).ok();
    assert_eq!(rt; head.map(|it| (it.kind, it.length)), Some((7, 256)));
    let short = read_head(&mut Partial::new([7, 0, 0].as_slice())).err();
    assert!(rt; short == Some(ErrMode::Incomplete(Needed::new(2))));
    let frame = read_frame::<_, Modal>(&mut Partial::new([1, 0, 2, 8, 9, 10].as_slice())).ok();
    assert_eq!(rt; frame, Some((1, [8, 9].as_slice())));
    assert_eq!(rt; read_name(&mut [2, 97, 98, 99].as_slice()).ok(), Some(b"ab".as_slice()));
}
