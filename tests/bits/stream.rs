//! Bits as a stream.
use std::fmt::Debug;
use std::process::Abort;
use stream_bits::bits::Bits;
use stream_errors::convert::{ConvertInput, ErrorConvert};
use stream_errors::empty::EmptyError;
use stream_errors::input_error::InputError;
use stream_errors::mode::ErrMode;
use stream_errors::parser_error::ParserError;
use stream_errors::recover::Recover;
use streams::locating::LocatingSlice;
use streams::needed::Needed;
use streams::partial::Partial;
use streams::stream::{Location, Stream, StreamIsPartial};
use test_support::outcomes::{Kind, outcome_of};
use test_support::rows::{Modal, same};
use winnow_core::combinator::impls::Eof;
use winnow_token::token::impls::Any;
use winnow_token::token::take;

/// Two bytes with the bits 1010 1011 1100 1101.
const BYTES: [u8; 2] = [0xAB, 0xCD];

/// Whether bit `place` of the two bytes is 1, the greatest being bit 0.
fn bit(place: usize) -> bool {
    (0xABCD_u16 >> (15 - place)) % 2 == 1
}

/// The bits from every offset on, one by one and as an iterator.
#[test]
fn tokens_of_bits(rt: HostRuntime) {
    for read in 0..8 {
        let mut input = Bits(BYTES.as_slice(), read);
        assert_eq!(rt; input.eof_offset(), 16 - read);
        let mut place = read;
        for (offset, token) in input.iter_offsets() {
            assert_eq!(rt; offset, place - read, "the offset of bit {place}");
            assert_eq!(rt; token, bit(place), "bit {place} of an iterator");
            place += 1;
        }
        assert_eq!(rt; place, 16, "as many bits as there are");
        for place in read..16 {
            assert_eq!(rt; input.next_token(), Some(bit(place)), "bit {place}");
            let left = Bits(&BYTES.as_slice()[(place + 1) / 8..], (place + 1) % 8);
            assert_eq!(rt; input, left, "behind bit {place}");
        }
        assert_eq!(rt; input.next_token(), None);
        assert_eq!(rt; input, Bits(b"".as_slice(), 0));
    }
}

/// Offsets, places and slices from each bit to each later one.
#[test]
fn places_of_bits(rt: HostRuntime) {
    for read in 0..8 {
        for taken in 0..=(16 - read) {
            let start = Bits(BYTES.as_slice(), read);
            assert_eq!(rt; start.offset_at(taken), Ok(taken));
            let mut input = start;
            let place = input.checkpoint();
            let (bytes, from, to) = input.next_slice(taken);
            let end = read + taken;
            assert_eq!(rt; bytes, &BYTES.as_slice()[..end / 8], "{taken} from {read}");
            assert_eq!(rt; (from, to), (read, end % 8), "{taken} from {read}");
            let left = Bits(&BYTES.as_slice()[end / 8..], end % 8);
            assert_eq!(rt; input, left, "behind {taken} from {read}");
            assert_eq!(rt; input.offset_from(&place), taken);
            input.reset(&place);
            assert_eq!(rt; input, start);
        }
        let mut all = Bits(BYTES.as_slice(), read);
        assert_eq!(rt; all.offset_at(17), Err(Needed::new(1 + read)));
        assert_eq!(rt; all.finish(), (BYTES.as_slice(), read, 0));
        assert_eq!(rt; all, Bits(b"".as_slice(), 0));
    }
    assert_eq!(rt; Bits(BYTES.as_slice(), 0).offset_for(|b: bool| !b), Some(1));
    assert_eq!(rt; Bits(BYTES.as_slice(), 6).offset_for(|b: bool| !b), Some(4));
    assert_eq!(rt; Bits(b"\xFF".as_slice(), 3).offset_for(|b: bool| !b), None);
}

/// An impossible value has no bits, and stays as it is.
fn stays<I: Stream<Token = bool> + Copy + PartialEq + Debug>(rt: &impl Abort, impossible: I)
where
    I::Slice: PartialEq + Debug,
{
    let mut input = impossible;
    assert_eq!(rt; input.eof_offset(), 0, "{impossible:?}");
    assert_eq!(rt; input.next_token(), None, "{impossible:?}");
    for (offset, _token) in input.iter_offsets() {
        panic!(rt; "{impossible:?} has a bit at {offset}");
    }
    assert_eq!(rt; input.offset_at(0), Ok(0));
    assert_eq!(rt; input.offset_at(2), Err(Needed::new(2)));
    assert_eq!(rt; input.offset_for(|_bit: bool| true), None);
    let place = input.checkpoint();
    let _none = input.next_slice(0);
    let _all = input.finish();
    assert_eq!(rt; input.offset_from(&place), 0);
    input.reset(&place);
    assert_eq!(rt; input, impossible);
}

#[test]
fn impossible_bits(rt: HostRuntime) {
    for read in [8, 9, 4096, usize::MAX] {
        stays(&rt, Bits(b"\xAB".as_slice(), read));
        stays(&rt, Bits(b"".as_slice(), read));
        stays(&rt, Bits(Partial::new(b"\xAB".as_slice()), read));
    }
    stays(&rt, Bits(b"".as_slice(), 3));
    assert_eq!(rt; Bits(b"\xAB".as_slice(), 7).is_possible(), true);
    assert_eq!(rt; Bits(b"\xAB".as_slice(), 8).is_possible(), false);
    assert_eq!(rt; Bits(b"".as_slice(), 0).is_possible(), true);
    assert_eq!(rt; Bits(b"".as_slice(), 1).is_possible(), false);
    let whole = Bits(b"\xAB".as_slice(), 8);
    let cut = Bits(Partial::new(b"\xAB".as_slice()), 8);
    let got = outcome_of::<_, bool, Modal, _>(&mut Any, whole);
    same(&rt, "any", "an impossible place", got, (Err(Kind::Backtrack), whole));
    let got = outcome_of::<_, bool, Modal, _>(&mut Any, cut);
    let lacks = Err(Kind::Incomplete(Needed::new(1)));
    same(&rt, "any", "an impossible place that is cut", got, (lacks, cut));
    let (answer, rest) = outcome_of::<_, _, Modal, _>(&mut Eof, whole);
    assert_eq!(rt; answer.is_ok(), true, "eof at an impossible place");
    assert_eq!(rt; rest, whole);
}

/// Parsers of tokens run on bits.
#[test]
fn tokens_parse_bits(rt: HostRuntime) {
    let got = outcome_of::<_, _, Modal, _>(&mut (Any, Any), Bits(BYTES.as_slice(), 1));
    let left = Bits(BYTES.as_slice(), 3);
    same(&rt, "any", "two bits", got, (Ok((false, true)), left));
    let mut parser = take(9u8);
    let got = outcome_of::<_, _, Modal, _>(&mut parser, Bits(BYTES.as_slice(), 4));
    let slice = (&BYTES.as_slice()[..1], 4, 5);
    same(&rt, "take", "nine bits", got, (Ok(slice), Bits(b"\xCD".as_slice(), 5)));
    let cut = Bits(Partial::new(BYTES.as_slice()), 10 - 8);
    let mut parser = take(17u8);
    let (answer, rest) = outcome_of::<_, _, Modal, _>(&mut parser, cut);
    assert_eq!(rt; answer, Err(Kind::Incomplete(Needed::new(3))));
    assert_eq!(rt; rest, cut);
}

#[test]
fn bits_in_wrappers(rt: HostRuntime) {
    let mut input = Bits(LocatingSlice::new(BYTES.as_slice()), 0);
    assert_eq!(rt; input.current_token_start(), 0);
    let _some = input.next_slice(11);
    assert_eq!(rt; input.current_token_start(), 1, "the place counts bytes");
    assert_eq!(rt; input.previous_token_end(), 1);
    let mut cut = Bits(Partial::new(BYTES.as_slice()), 0);
    assert_eq!(rt; cut.is_partial(), true);
    let state = cut.complete();
    assert_eq!(rt; cut.is_partial(), false);
    cut.restore_partial(state);
    assert_eq!(rt; cut.is_partial(), true);
    assert_eq!(rt; Bits::<&[u8]>::is_partial_supported(), false);
    let recovers = <Bits<&[u8]> as Recover<EmptyError>>::is_recovery_supported();
    assert_eq!(rt; recovers, false);
}

/// Conversions to bits of a stream that counts its offset, and of a partial stream, start at the
/// first bit.
#[test]
fn inputs_of_bits(rt: HostRuntime) {
    let cut = Partial::new(BYTES.as_slice());
    let bits: Bits<Partial<&[u8]>> = cut.convert_input();
    assert_eq!(rt; bits, Bits(cut, 0));
    let back: Partial<&[u8]> = Bits(cut, 3).convert_input();
    assert_eq!(rt; back, cut);
    let mut located = LocatingSlice::new(BYTES.as_slice());
    assert_eq!(rt; located.next_token(), Some(0xAB));
    let bits: Bits<LocatingSlice<&[u8]>> = located.convert_input();
    assert_eq!(rt; (bits.current_token_start(), bits.1, bits.eof_offset()), (1, 0, 8));
    let back: LocatingSlice<&[u8]> = Bits(bits.0, 3).convert_input();
    assert_eq!(rt; (back.current_token_start(), *back.as_inner()), (1, b"\xCD".as_slice()));
}

/// An error that keeps its input keeps the bits of the bytes, and the bytes of the bits.
#[test]
fn errors_of_bits(rt: HostRuntime) {
    let bytes: &[u8] = BYTES.as_slice();
    let bits: Bits<&[u8]> = bytes.convert_input();
    assert_eq!(rt; bits, Bits(bytes, 0));
    let back: &[u8] = Bits(bytes, 3).convert_input();
    assert_eq!(rt; back, bytes);
    let error: ErrMode<InputError<Bits<&[u8]>>> = ErrMode::assert(&bits, "why");
    let converted: ErrMode<InputError<&[u8]>> = error.convert();
    match converted {
        ErrMode::Cut(inner) => assert_eq!(rt; inner.input, bytes),
        _ => panic!(rt; "an error that cuts cuts"),
    }
}
