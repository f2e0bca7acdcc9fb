//! Data after their length.
use crate::compared::{Inputs, check, check_text};
use machines::counted::Counted;
use machines::digits::{Decimal, Hexadecimal, Numeral};
use machines::sets::Byte;
use machines::text::Text;

const LETTERS: Inputs = Inputs { letters: b"012:", longest: 5, more: 4 };

/// Whether the text is digits whose number is at most 2, a colon, and as many bytes.
fn is_counted(text: &[u8]) -> bool {
    let mut number = 0;
    for at in 0..text.len() {
        if text[at] == b':' {
            return at > 0 && number <= 2 && text.len() - at - 1 == number;
        }
        number = number * 10 + (text[at] - b'0') as usize;
    }
    false
}

#[test]
fn decimal_lengths(rt: HostRuntime) {
    let machine = Counted(Numeral { radix: Decimal, limit: 2, mark: Byte(b':') });
    check(&rt, &machine, LETTERS, is_counted);
}

#[test]
fn hexadecimal_lengths(rt: HostRuntime) {
    let machine = Counted(Numeral { radix: Hexadecimal, limit: 0x1f, mark: Text(*b"\r\n") });
    let rows: &[(&[u8], Result<Option<usize>, usize>)] = &[
        (b"", Ok(None)),
        (b"0", Ok(None)),
        (b"0\r\n", Ok(Some(3))),
        (b"0\r\nx", Ok(Some(3))),
        (b"3\r\nabcd", Ok(Some(6))),
        (b"3\r\n\r\n", Ok(None)),
        (b"a\r\n0123456789", Ok(Some(13))),
        (b"A\r\n0123456789x", Ok(Some(13))),
        (b"00f\r\n0123456789abcde", Ok(Some(20))),
        (b"1F\r\n0123456789abcdef0123456789abcde", Ok(Some(35))),
        (b"1f\r\n0123456789abcdef0123456789abcd", Ok(None)),
        (b"20\r\n", Err(1)),
        (b"1f0\r\n", Err(2)),
        (b"g\r\n", Err(0)),
        (b"\r\n", Err(0)),
        (b"3\n", Err(1)),
        (b"3\r\r", Err(2)),
    ];
    for (text, want) in rows {
        check_text(&rt, &machine, *text, *want);
    }
}

#[test]
fn the_largest_length(rt: HostRuntime) {
    let machine =
        Counted(Numeral { radix: Decimal, limit: 18446744073709551615, mark: Byte(b':') });
    check_text(&rt, &machine, b"18446744073709551615:".as_slice(), Ok(None));
    check_text(&rt, &machine, b"18446744073709551616:".as_slice(), Err(19));
    check_text(&rt, &machine, b"184467440737095516150:".as_slice(), Err(20));
}
