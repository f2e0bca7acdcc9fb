//! Names as text, by the rules of RFC 1035 (section 5.1), names of 255 octets and more (section
//! 2.3.4), and names that differ in the case of letters (RFC 4343).
use format_dns::fault::PartError;
use format_dns::name::read_name;

/// A message that is a name, and the text of it.
const TEXTS: &[(&[u8], &str)] = &[
    (b"\0", "."),
    (b"\x03com\0", "com."),
    (b"\x03WWW\x07Example\x03com\0", "WWW.Example.com."),
    (b"\x03a.b\x01c\0", "a\\.b.c."),
    (b"\x02\\\"\0", "\\\\\\\"."),
    (b"\x05$();@\0", "\\$\\(\\)\\;\\@."),
    (b"\x04\0 \x7f\xff\0", "\\000\\032\\127\\255."),
    (b"\x02!~\0", "!~."),
    (b"\x03_\x09-\0", "_\\009-."),
];

/// Two names, and whether they are the same.
const PAIRS: &[(&[u8], &[u8], bool)] = &[
    (b"\0", b"\0", true),
    (b"\x03com\0", b"\x03COM\0", true),
    (b"\x01a\x01B\0", b"\x01A\x01b\0", true),
    (b"\x01a\0", b"\0", false),
    (b"\0", b"\x01a\0", false),
    (b"\x01a\x01b\0", b"\x01a\0", false),
    (b"\x01a\x01b\0", b"\x03a\x01b\0", false),
    (b"\x02ab\0", b"\x01a\x01b\0", false),
    // Bytes next to the letters, 32 apart, are not letters.
    (b"\x01@\0", b"\x01`\0", false),
    (b"\x01[\0", b"\x01{\0", false),
    (b"\x01Z\0", b"\x01z\0", true),
    (b"\x01\xc4\0", b"\x01\xe4\0", false),
];

#[test]
fn names_as_text(rt: HostRuntime) {
    for (message, text) in TEXTS {
        match read_name(rt.alloc(), 0, message, 0) {
            Ok(name) => {
                let said = format!(in rt.alloc(); "{name}");
                assert!(rt; matches!(said, Ok(said) if said.as_str() == *text), "{text}");
            }
            Err(fault) => assert!(rt; false, "{text}: {fault:?}"),
        }
    }
}

#[test]
fn names_in_other_letters(rt: HostRuntime) {
    for (one, other, same) in PAIRS {
        let first = read_name(rt.alloc(), 0, one, 0);
        let second = read_name(rt.alloc(), 0, other, 0);
        match (first, second) {
            (Ok(first), Ok(second)) => {
                assert_eq!(rt; first.eq_ignore_ascii_case(&second), *same, "{one:?} {other:?}");
            }
            _ => assert!(rt; false, "{one:?} {other:?}"),
        }
    }
}

/// Writes labels of the given sizes from `place` on, and returns the offset after them.
fn put_labels(message: &mut [u8], place: usize, sizes: &[usize]) -> usize {
    let mut at = place;
    for size in sizes {
        message[at] = *size as u8;
        for k in 0..*size {
            message[at + 1 + k] = b'x';
        }
        at += *size + 1;
    }
    at
}

/// Sizes of labels, and why there is no name of them; none where there is.
const LONG: &[(&[usize], Option<PartError>)] = &[
    // 3 * 64 + 62 + 1 = 255 octets, and one more.
    (&[63, 63, 63, 61], None),
    (&[63, 63, 63, 62], Some(PartError::TooLong(0))),
    (&[63, 63, 63, 63], Some(PartError::TooLong(0))),
    (&[1, 63, 63, 63, 59], None),
    (&[1, 63, 63, 63, 60], Some(PartError::TooLong(0))),
];

#[test]
fn names_of_255_octets(rt: HostRuntime) {
    for (sizes, want) in LONG {
        let mut message = [0u8; 300];
        let end = put_labels(&mut message, 0, sizes);
        match read_name(rt.alloc(), 0, &message, 0) {
            Ok(name) => {
                assert!(rt; want.is_none(), "{end}");
                assert_eq!(rt; name.behind, end + 1);
            }
            Err(fault) => assert_eq!(rt; Some(fault), *want, "{end}"),
        }
    }
}

#[test]
fn names_of_127_labels(rt: HostRuntime) {
    for count in [127usize, 128] {
        let mut message = [0u8; 300];
        for k in 0..count {
            put_labels(&mut message, 2 * k, &[1]);
        }
        match read_name(rt.alloc(), 0, &message, 0) {
            Ok(name) => assert_eq!(rt; (count, name.labels.len()), (127, 127)),
            Err(fault) => assert_eq!(rt; (count, fault), (128, PartError::TooLong(0))),
        }
    }
}

#[test]
fn names_too_long_by_a_pointer(rt: HostRuntime) {
    // 193 octets with the root at 0, and 61 or 62 before them.
    for (size, want) in [(61usize, None), (62, Some(PartError::TooLong(0)))] {
        let mut message = [0u8; 300];
        let start = put_labels(&mut message, 0, &[63, 63, 63]) + 1;
        let end = put_labels(&mut message, start, &[size]);
        message[end] = 0xc0;
        match read_name(rt.alloc(), 1, &message, start) {
            Ok(name) => {
                assert!(rt; want.is_none(), "{size}");
                assert_eq!(rt; (name.labels.len(), name.behind), (4, end + 2));
            }
            Err(fault) => assert_eq!(rt; Some(fault), want, "{size}"),
        }
    }
}
