//! Sets of bytes as a table.
use stream_sets::byte_set::ByteSet;
use std::process::Abort;
use stream_sets::classes::HexadecimalDigits;
use stream_sets::sets::{ContainsToken, Pred};

/// Checks all 256 bytes of a table against the set that it was made from, and its complement and
/// its number.
fn is_the_set<S: ContainsToken<u8> + Drop>(rt: &impl Abort, set: S) -> ByteSet {
    let table = ByteSet::from_set(&set);
    let others = table.complement();
    let mut members = 0;
    for byte in 0..=u8::MAX {
        let is_member = set.contains_token(byte);
        assert_eq!(rt; table.contains(byte), is_member);
        assert_eq!(rt; table.contains_token(byte), is_member);
        assert_eq!(rt; others.contains(byte), !is_member);
        if is_member {
            members += 1;
        }
    }
    assert_eq!(rt; table.len(), members);
    assert_eq!(rt; others.len(), 256 - members);
    assert_eq!(rt; others.complement(), table);
    table
}

#[test]
fn byte_set(rt: HostRuntime) {
    let blanks = is_the_set(&rt, (b' ', b'\t', b'\r', b'\n'));
    assert_eq!(rt; blanks.len(), 4);
    assert_eq!(rt; blanks.complement().len(), 252);
    let all = is_the_set(&rt, 0..=255_u8);
    assert_eq!(rt; all.len(), 256);
    assert_eq!(rt; all.complement().len(), 0);
}

/// Bytes at the ends of words differ from their neighbours.
#[test]
fn byte_set_of_one_byte(rt: HostRuntime) {
    for byte in 0..=u8::MAX {
        let one = is_the_set(&rt, byte);
        assert_eq!(rt; one.len(), 1);
    }
    for (byte, before, behind) in [(63, 62, 64), (64, 63, 65), (127, 126, 128), (192, 191, 193)] {
        let one = ByteSet::from_set(&byte);
        assert!(rt; one.contains(byte) && !one.contains(before) && !one.contains(behind));
    }
    let last = ByteSet::from_set(&255_u8);
    assert!(rt; last.contains(255) && !last.contains(254) && !last.contains(0));
}

#[test]
fn byte_set_of_sets(rt: HostRuntime) {
    is_the_set(&rt, b'a'..=b'z');
    is_the_set(&rt, b'a'..b'z');
    is_the_set(&rt, b'a'..);
    is_the_set(&rt, ..b'a');
    is_the_set(&rt, ..=b'a');
    is_the_set(&rt, ..);
    is_the_set(&rt, [b'a', b'z', 0, 255]);
    is_the_set(&rt, [0_u8; 0]);
    is_the_set(&rt, 'é');
    is_the_set(&rt, 'a'..='é');
    is_the_set(&rt, HexadecimalDigits);
    is_the_set(&rt, (b'_', b'-', b'0'..=b'9', b'A'..=b'Z', b'a'..=b'z'));
    is_the_set(&rt, Pred(|b: u8| b.is_ascii_alphanumeric()));
    is_the_set(&rt, Pred(|b: u8| b % 3 == 1));
    is_the_set(&rt, ByteSet::from_set(&(b'a', b'b')));
}

#[test]
fn byte_set_union(rt: HostRuntime) {
    let digits = ByteSet::from_set(&(b'0'..=b'9'));
    let more = ByteSet::from_set(&(b'5'..=b'F'));
    let either = digits.union(more);
    for byte in 0..=u8::MAX {
        assert_eq!(rt; either.contains(byte), (b'0'..=b'F').contains_token(byte));
    }
    assert_eq!(rt; either.len(), 23);
    assert_eq!(rt; digits.union(digits), digits);
    assert_eq!(rt; digits.union(digits.complement()).len(), 256);
}
