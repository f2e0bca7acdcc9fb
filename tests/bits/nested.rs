//! `bits` and `bytes` in each other.
use stream_bits::bits::Bits;
use stream_errors::mode::ErrMode;
use stream_errors::input_error::InputError;
use streams::needed::Needed;
use streams::partial::Partial;
use streams::stream::Stream;
use test_support::outcomes::{Kind, outcome_of};
use test_support::rows::{Modal, same};
use winnow_bits::bits::impls::Bool;
use winnow_bits::bits::{bits, bytes, take};
use winnow_core::parser::Parser;
use winnow_token::token;
use winnow_token::token::impls::Any;

#[test]
fn bytes_inside_bits(rt: HostRuntime) {
    let input = b"\x12\x34\x56\x78".as_slice();
    let byte = bytes::<_, u8, Modal, Modal, _>(Any);
    let mut parser = bits::<_, (u8, u8, u8), Modal, Modal, _>((take(4u8), byte, take(4u8)));
    let got = outcome_of::<&[u8], (u8, u8, u8), Modal, _>(&mut parser, input);
    same(&rt, "bytes in bits", "12 34 56 78", got, (Ok((1, 0x34, 5)), &input[3..]));
}

#[test]
fn bits_inside_bytes(rt: HostRuntime) {
    let input = Bits(b"\xAB\xCD\xEF".as_slice(), 4);
    let field = bits::<_, u8, Modal, Modal, _>(take(4u8));
    let mut parser = bytes::<_, u8, Modal, Modal, _>(field);
    let got = outcome_of::<Bits<&[u8]>, u8, Modal, _>(&mut parser, input);
    same(&rt, "bits in bytes", "AB CD EF", got, (Ok(0xC), Bits(b"\xEF".as_slice(), 0)));
}

/// A need of one byte is one of eight bits, and that one of two bytes.
#[test]
fn bits_and_bytes_needs(rt: HostRuntime) {
    let input = Partial::new(b"\xAB".as_slice());
    let two = bytes::<_, &[u8], Modal, Modal, _>(token::take(2u8));
    let mut parser = bits::<_, &[u8], Modal, Modal, _>(two);
    let got = outcome_of::<Partial<&[u8]>, &[u8], Modal, _>(&mut parser, input);
    let need = Kind::Incomplete(Needed::new(2));
    same(&rt, "bytes in bits", "cut AB", got, (Err(need), input));
}

/// An error that keeps its input keeps one of its own type.
#[test]
fn bits_and_bytes_errors(rt: HostRuntime) {
    let mut input = b"\xAB".as_slice();
    let mut parser = bits::<
        &[u8],
        (bool, u8),
        ErrMode<InputError<Bits<&[u8]>>>,
        ErrMode<InputError<&[u8]>>,
        _,
    >((Bool, take(8u8)));
    match parser.parse_next(&mut input) {
        Err(ErrMode::Backtrack(error)) => assert_eq!(rt; error.input, b"\xAB".as_slice()),
        _ => panic!(rt; "too few bits backtrack"),
    }
    assert_eq!(rt; input, b"\xAB".as_slice());
}
