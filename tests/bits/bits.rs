//! The parsers of bits.
use std::fmt::Debug;
use std::process::Abort;
use stream_bits::bits::Bits;
use stream_errors::empty::EmptyError;
use stream_errors::parser_error::ParserError;
use streams::byte_stream::ByteStream;
use streams::locating::LocatingSlice;
use streams::needed::Needed;
use streams::partial::Partial;
use streams::stream::{Location, Stream, StreamIsPartial};
use test_support::outcomes::{Kind, kind_of, outcome_of};
use test_support::rows::{Modal, ModalAt, same};
use test_support::texts::completed;
use winnow_bits::bits;
use winnow_bits::bits::BitOutput;
use winnow_bits::bits::impls::Bool;
use winnow_core::parser::Parser;
use winnow_integers::binary::impls::BeU16;
use winnow_token::token;
use winnow_token::token::impls::Rest;

/// Bytes that may get more.
fn cut(bytes: &'static [u8]) -> Partial<&'static [u8]> {
    Partial::new(bytes)
}

/// A need of `units` units.
fn lacks(units: usize) -> Kind {
    Kind::Incomplete(Needed::new(units))
}

/// `take` of every count at every offset of two bytes, compared with the number that the bytes
/// encode.
#[test]
fn take(rt: HostRuntime) {
    let bytes = b"\xAB\xCD".as_slice();
    for read in 0..8 {
        for count in 0..=17 {
            let mut parser = bits::take(count);
            let whole = Bits(bytes, read);
            let got = outcome_of::<_, u32, Modal, _>(&mut parser, whole);
            let mut parser = bits::take(count);
            let partial = Bits(cut(bytes), read);
            let on_cut = outcome_of::<_, u32, Modal, _>(&mut parser, partial);
            if read + count <= 16 {
                let end = read + count;
                let number = (0xABCD_u32 >> (16 - end)) % (1 << count);
                let left = &bytes[end / 8..];
                let want = (Ok(number), Bits(left, end % 8));
                assert_eq!(rt; got, want, "{count} bits from {read}");
                let want = (Ok(number), Bits(cut(left), end % 8));
                assert_eq!(rt; on_cut, want, "{count} bits from {read}, cut");
            } else {
                let want = (Err(Kind::Backtrack), whole);
                assert_eq!(rt; got, want, "{count} bits from {read}");
                let want = (Err(lacks(count)), partial);
                assert_eq!(rt; on_cut, want, "{count} bits from {read}, cut");
            }
        }
    }
}

/// `take` of every count at every offset of four distinct bytes, over a stream that counts its
/// offset and over one that is marked complete, compared with the number that the bytes encode.
#[test]
fn take_over_other_streams(rt: HostRuntime) {
    let bytes = b"\x12\x8F\x63\xD4".as_slice();
    for read in 0..8 {
        for count in 0..=32 - read {
            let end = read + count;
            let number = (0x128F_63D4_u64 >> (32 - end)) % (1 << count);
            let located = Bits(LocatingSlice::new(bytes), read);
            let (answer, rest) = outcome_of::<_, u64, Modal, _>(&mut bits::take(count), located);
            assert_eq!(rt; answer, Ok(number), "{count} bits from {read}, by place");
            let stands = (rest.current_token_start(), rest.1);
            assert_eq!(rt; stands, (end / 8, end % 8), "{count} bits from {read}, by place");
            let complete = Bits(completed(cut(bytes)), read);
            let got = outcome_of::<_, u64, Modal, _>(&mut bits::take(count), complete);
            let want = (Ok(number), Bits(completed(cut(&bytes[end / 8..])), end % 8));
            assert_eq!(rt; got, want, "{count} bits from {read}, complete");
        }
        let count = 33 - read;
        let located = Bits(LocatingSlice::new(bytes), read);
        let (answer, rest) = outcome_of::<_, u64, Modal, _>(&mut bits::take(count), located);
        assert_eq!(rt; answer, Err(Kind::Backtrack), "{count} bits from {read}, by place");
        let stands = (rest.current_token_start(), rest.1);
        assert_eq!(rt; stands, (0, read), "{count} bits from {read}, by place");
        let complete = Bits(completed(cut(bytes)), read);
        let got = outcome_of::<_, u64, Modal, _>(&mut bits::take(count), complete);
        assert_eq!(rt; got, (Err(Kind::Backtrack), complete), "{count} bits from {read}, complete");
    }
}

/// A take into a type, of as many bits as it has, and of one more.
fn take_into<O: BitOutput + Debug>(rt: &impl Abort, width: usize, all: O, half: O) {
    let bytes = b"\xFF\xFF\xFF\xFF\xFF\xFF\xFF\xFF\xFF\xFF\xFF\xFF\xFF\xFF\xFF\xFF\xFF".as_slice();
    assert_eq!(rt; O::WIDTH, width);
    let got = outcome_of::<_, O, Modal, _>(&mut bits::take(width), Bits(bytes, 0));
    same(rt, "take", "the width", got, (Ok(all), Bits(&bytes[width / 8..], 0)));
    let got = outcome_of::<_, O, Modal, _>(&mut bits::take(width), Bits(bytes, 5));
    same(rt, "take", "the width inside", got, (Ok(all), Bits(&bytes[width / 8..], 5)));
    let got = outcome_of::<_, O, Modal, _>(&mut bits::take(width - 1), Bits(bytes, 0));
    same(rt, "take", "less", got, (Ok(half), Bits(&bytes[width / 8 - 1..], 7)));
    let got = outcome_of::<_, O, Modal, _>(&mut bits::take(width + 1), Bits(bytes, 0));
    same(rt, "take", "more", got, (Err(Kind::Cut), Bits(bytes, 0)));
    let few = Bits(b"\xFF".as_slice(), 0);
    let got = outcome_of::<_, O, Modal, _>(&mut bits::take(width + 1), few);
    same(rt, "take", "more than there are", got, (Err(Kind::Cut), few));
}

#[test]
fn take_widths(rt: HostRuntime) {
    take_into(&rt, 8, u8::MAX, u8::MAX / 2);
    take_into(&rt, 16, u16::MAX, u16::MAX / 2);
    take_into(&rt, 32, u32::MAX, u32::MAX / 2);
    take_into(&rt, 64, u64::MAX, u64::MAX / 2);
    take_into(&rt, 128, u128::MAX, u128::MAX / 2);
    take_into(&rt, 64, usize::MAX, usize::MAX / 2);
}

#[test]
fn take_rows(rt: HostRuntime) {
    let input = Bits(b"\xAB\xCD".as_slice(), 4);
    let got = outcome_of::<_, u8, Modal, _>(&mut bits::take(8u8), input);
    same(&rt, "take", "AB CD", got, (Ok(0xBC), Bits(b"\xCD".as_slice(), 4)));
    let got = outcome_of::<_, u8, Modal, _>(&mut bits::take(9u8), input);
    same(&rt, "take", "more than the type has", got, (Err(Kind::Cut), input));
    let empty = Bits(b"".as_slice(), 3);
    let got = outcome_of::<_, u8, Modal, _>(&mut bits::take(0u8), empty);
    same(&rt, "take", "none of none", got, (Ok(0), empty));
    let beyond = Bits(b"\xAB".as_slice(), 8);
    let got = outcome_of::<_, u8, Modal, _>(&mut bits::take(1u8), beyond);
    same(&rt, "take", "an impossible place", got, (Err(Kind::Cut), beyond));
    let got = outcome_of::<_, u8, EmptyError, _>(&mut bits::take(1u8), beyond);
    same(&rt, "take", "a plain error", got, (Err(Kind::Backtrack), beyond));
    assert_eq!(rt; 0x12_u8.push_bit(true), 0x25);
    assert_eq!(rt; 0x12_u16.push_bits(5, 3), 0x95);
    assert_eq!(rt; 0_u8.push_bits(0xFF, 8), 0xFF);
}

#[test]
fn pattern(rt: HostRuntime) {
    let input = Bits(b"\xAB".as_slice(), 0);
    let got = outcome_of::<_, u8, Modal, _>(&mut bits::pattern(5_u8, 3u8), input);
    same(&rt, "pattern", "five", got, (Ok(5), Bits(b"\xAB".as_slice(), 3)));
    let got = outcome_of::<_, u8, Modal, _>(&mut bits::pattern(4_u8, 3u8), input);
    same(&rt, "pattern", "four", got, (Err(Kind::Backtrack), input));
    let got = outcome_of::<_, u8, Modal, _>(&mut bits::pattern(0xAB_u8, 9u8), input);
    same(&rt, "pattern", "more than the type has", got, (Err(Kind::Cut), input));
    let partial = Bits(cut(b"\xAB"), 0);
    let got = outcome_of::<_, u16, Modal, _>(&mut bits::pattern(0_u16, 9u8), partial);
    same(&rt, "pattern", "too few", got, (Err(lacks(9)), partial));
}

#[test]
fn bool(rt: HostRuntime) {
    let mut input = Bits(b"\x80".as_slice(), 0);
    let first: Result<bool, Modal> = bits::bool(&mut input);
    assert_eq!(rt; first, Ok(true));
    assert_eq!(rt; input, Bits(b"\x80".as_slice(), 1));
    let got = outcome_of::<_, bool, Modal, _>(&mut Bool, input);
    same(&rt, "bool", "80", got, (Ok(false), Bits(b"\x80".as_slice(), 2)));
    let beyond = Bits(b"\xAB".as_slice(), 8);
    let got = outcome_of::<_, bool, Modal, _>(&mut Bool, beyond);
    same(&rt, "bool", "an impossible place", got, (Err(Kind::Cut), beyond));
    let none = Bits(b"".as_slice(), 0);
    let got = outcome_of::<_, bool, Modal, _>(&mut Bool, none);
    same(&rt, "bool", "nothing", got, (Err(Kind::Backtrack), none));
    let none = Bits(cut(b""), 0);
    let got = outcome_of::<_, bool, Modal, _>(&mut Bool, none);
    same(&rt, "bool", "nothing yet", got, (Err(lacks(1)), none));
}

/// Checks the result of `bits` on bytes, and the rest.
fn bits_ends<I, O, P>(rt: &impl Abort, row: &str, parser: P, input: I, want: Result<O, Kind>, rest: I)
where
    I: ByteStream + StreamIsPartial + Copy + PartialEq + Debug,
    O: PartialEq + Debug + Drop,
    P: Parser<Bits<I>, O, Modal> + Drop,
{
    let mut parser = bits::bits(parser);
    let got = outcome_of::<I, O, Modal, _>(&mut parser, input);
    same(rt, "bits", row, got, (want, rest));
}

#[test]
fn bits_of_bytes(rt: HostRuntime) {
    let bytes = b"\x12\x34\x56".as_slice();
    let parser = (bits::take(4u8), bits::take(8u8));
    bits_ends::<_, (u8, u8), _>(&rt, "12 34 56", parser, bytes, Ok((1, 0x23)), &bytes[2..]);
    let bytes = b"\xAB\xCD".as_slice();
    bits_ends::<_, u8, _>(&rt, "AB CD", bits::take(4u8), bytes, Ok(0xA), &bytes[1..]);
    bits_ends::<_, u8, _>(&rt, "a whole byte", bits::take(8u8), bytes, Ok(0xAB), &bytes[1..]);
    bits_ends::<_, u8, _>(&rt, "no bit", bits::take(0u8), bytes, Ok(0), bytes);
    let wrong = (bits::take(3u8), bits::pattern(0_u8, 4u8));
    bits_ends::<_, (u8, u8), _>(&rt, "a failure", wrong, bytes, Err(Kind::Backtrack), bytes);
    bits_ends::<_, u8, _>(&rt, "an assert", bits::take(9u8), bytes, Err(Kind::Cut), bytes);
    let few = cut(b"\xAB");
    bits_ends::<_, u16, _>(&rt, "cut AB", bits::take(16u8), few, Err(lacks(3)), few);
    bits_ends::<_, u16, _>(&rt, "cut AB", bits::take(12u8), few, Err(lacks(2)), few);
    let after_some = (Bool, bits::take(9u8));
    bits_ends::<_, (bool, u16), _>(&rt, "cut AB", after_some, few, Err(lacks(2)), few);
}

/// Checks the result of `bytes` on bits, and the rest.
fn bytes_ends<I, O, P>(
    rt: &impl Abort,
    row: &str,
    parser: P,
    input: Bits<I>,
    want: Result<O, Kind>,
    rest: Bits<I>,
)
where
    I: ByteStream + StreamIsPartial + Copy + PartialEq + Debug,
    O: PartialEq + Debug + Drop,
    P: Parser<I, O, Modal> + Drop,
{
    let mut parser = bits::bytes(parser);
    let got = outcome_of::<Bits<I>, O, Modal, _>(&mut parser, input);
    same(rt, "bytes", row, got, (want, rest));
}

#[test]
fn bytes_of_bits(rt: HostRuntime) {
    let bytes = b"\xAB\xCD\xEF".as_slice();
    let behind = Ok(&bytes[1..2]);
    let one = token::take(1u8);
    bytes_ends(&rt, "inside", one, Bits(bytes, 4), behind, Bits(&bytes[2..], 0));
    let one = token::take(1u8);
    bytes_ends(&rt, "between", one, Bits(bytes, 0), Ok(&bytes[..1]), Bits(&bytes[1..], 0));
    let last = Bits(&bytes[2..], 7);
    let one = token::take(1u8);
    bytes_ends(&rt, "a last bit", one, last, Err(Kind::Backtrack), last);
    let beyond = Bits(&bytes[..1], 9);
    bytes_ends(&rt, "an impossible place", Rest, beyond, Err(Kind::Cut), beyond);
    let none = Bits(b"".as_slice(), 3);
    bytes_ends(&rt, "nothing begun", Rest, none, Err(Kind::Cut), none);
    let partial = Bits(cut(b"\xAB\xCD"), 4);
    let two = token::take(2u8);
    bytes_ends(&rt, "cut AB CD", two, partial, Err(lacks(8)), partial);
    bytes_ends(&rt, "cut AB CD, a number", BeU16, partial, Err(lacks(8)), partial);
    let nothing = Bits(cut(b""), 0);
    let unknown = Kind::Incomplete(Needed::Unknown);
    let most = token::take(usize::MAX);
    bytes_ends(&rt, "cut", most, nothing, Err(unknown), nothing);
    let known = token::take(usize::MAX / 8);
    let need = lacks(usize::MAX / 8 * 8);
    bytes_ends(&rt, "cut", known, nothing, Err(need), nothing);
    let literal = token::literal(b"\xCD\xF0".as_slice());
    bytes_ends(&rt, "cut AB CD", literal, partial, Err(unknown), partial);
}
