//! Each function that is itself a parser, called as users call it: on bytes, under plain errors.
//! The rows give its result for a text, and the rest.

use winnow::ascii::{
    alpha0, alpha1, alphanumeric0, alphanumeric1, crlf, dec_int, dec_uint, digit0, digit1,
    hex_digit0, hex_digit1, hex_uint, line_ending, multispace0, multispace1, newline, oct_digit0,
    oct_digit1, space0, space1, tab, till_line_ending,
};
use winnow::binary::{
    be_i8, be_i16, be_i24, be_i32, be_i64, be_i128, be_u8, be_u16, be_u24, be_u32, be_u64, be_u128,
    i8, le_i8, le_i16, le_i24, le_i32, le_i64, le_i128, le_u8, le_u16, le_u24, le_u32, le_u64,
    le_u128, u8,
};
use winnow::combinator::{empty, eof, fail};
use winnow::error::EmptyError;
use winnow::token::{any, rest, rest_len};

/// Calls parsers, each on a text, and checks the result and the rest.
macro_rules! gives {
    ($rt:expr; $($parser:ident $text:expr => $want:expr, $left:expr;)+) => {{
        $(
            let mut input = $text.as_slice();
            let answer: Result<_, EmptyError> = $parser(&mut input);
            assert!($rt; answer == Ok($want) && input == $left.as_slice());
        )+
    }};
}

#[test]
fn classes(rt: HostRuntime) {
    gives! { rt;
        alpha0 b"aZ1" => b"aZ".as_slice(), b"1";
        alpha0 b"1" => b"".as_slice(), b"1";
        alpha1 b"aZ1" => b"aZ".as_slice(), b"1";
        digit0 b"09a" => b"09".as_slice(), b"a";
        digit1 b"09a" => b"09".as_slice(), b"a";
        hex_digit0 b"0aFg" => b"0aF".as_slice(), b"g";
        hex_digit1 b"0aFg" => b"0aF".as_slice(), b"g";
        oct_digit0 b"078" => b"07".as_slice(), b"8";
        oct_digit1 b"078" => b"07".as_slice(), b"8";
        alphanumeric0 b"a1-" => b"a1".as_slice(), b"-";
        alphanumeric1 b"a1-" => b"a1".as_slice(), b"-";
        space0 b" \t\n" => b" \t".as_slice(), b"\n";
        space1 b" \t\n" => b" \t".as_slice(), b"\n";
        multispace0 b" \r\na" => b" \r\n".as_slice(), b"a";
        multispace1 b" \r\na" => b" \r\n".as_slice(), b"a";
    }
}

#[test]
fn lines_and_tokens(rt: HostRuntime) {
    gives! { rt;
        till_line_ending b"ab\nc" => b"ab".as_slice(), b"\nc";
        line_ending b"\r\nc" => b"\r\n".as_slice(), b"c";
        crlf b"\r\nc" => b"\r\n".as_slice(), b"c";
        newline b"\nc" => '\n', b"c";
        tab b"\tc" => '\t', b"c";
        any b"ab" => b'a', b"b";
        rest b"ab" => b"ab".as_slice(), b"";
        rest_len b"ab" => 2, b"ab";
        empty b"ab" => (), b"ab";
        eof b"" => b"".as_slice(), b"";
    }
    let answer: Result<(), EmptyError> = fail(&mut b"ab".as_slice());
    assert!(rt; answer.is_err());
}

#[test]
fn numbers(rt: HostRuntime) {
    gives! { rt;
        dec_uint b"42;" => 42_u64, b";";
        dec_int b"-42;" => -42_i8, b";";
        hex_uint b"ff;" => 255_u8, b";";
    }
}

#[test]
fn unsigned_integers(rt: HostRuntime) {
    let bytes = b"\x01\x02\x03\x04\x05\x06\x07\x08\x09\x0a\x0b\x0c\x0d\x0e\x0f\x10";
    gives! { rt;
        u8 b"\x81a" => 0x81, b"a";
        be_u8 b"\x81a" => 0x81, b"a";
        le_u8 b"\x81a" => 0x81, b"a";
        be_u16 b"\x01\x02a" => 0x0102, b"a";
        le_u16 b"\x01\x02a" => 0x0201, b"a";
        be_u24 b"\x01\x02\x03a" => 0x0001_0203, b"a";
        le_u24 b"\x01\x02\x03a" => 0x0003_0201, b"a";
        be_u32 b"\x01\x02\x03\x04a" => 0x0102_0304, b"a";
        le_u32 b"\x01\x02\x03\x04a" => 0x0403_0201, b"a";
        be_u64 b"\x01\x02\x03\x04\x05\x06\x07\x08a" => 0x0102_0304_0506_0708, b"a";
        le_u64 b"\x01\x02\x03\x04\x05\x06\x07\x08a" => 0x0807_0605_0403_0201, b"a";
        be_u128 bytes => 0x0102_0304_0506_0708_090a_0b0c_0d0e_0f10, b"";
        le_u128 bytes => 0x100f_0e0d_0c0b_0a09_0807_0605_0403_0201, b"";
    }
}

#[test]
fn signed_integers(rt: HostRuntime) {
    let big = b"\xff\xff\xff\xff\xff\xff\xff\xff\xff\xff\xff\xff\xff\xff\xff\xfe";
    let little = b"\xfe\xff\xff\xff\xff\xff\xff\xff\xff\xff\xff\xff\xff\xff\xff\xff";
    gives! { rt;
        i8 b"\xfea" => -2, b"a";
        be_i8 b"\xfea" => -2, b"a";
        le_i8 b"\xfea" => -2, b"a";
        be_i16 b"\xff\xfea" => -2, b"a";
        le_i16 b"\xfe\xffa" => -2, b"a";
        be_i24 b"\xff\xff\xfea" => -2, b"a";
        le_i24 b"\xfe\xff\xffa" => -2, b"a";
        be_i32 b"\xff\xff\xff\xfea" => -2, b"a";
        le_i32 b"\xfe\xff\xff\xffa" => -2, b"a";
        be_i64 b"\xff\xff\xff\xff\xff\xff\xff\xfea" => -2, b"a";
        le_i64 b"\xfe\xff\xff\xff\xff\xff\xff\xffa" => -2, b"a";
        be_i128 big => -2, b"";
        le_i128 little => -2, b"";
    }
}
