//! Names, from RFC 1035 (section 4.1.4) and by hand, and why there is none.
use format_dns::fault::PartError;
use format_dns::name::read_name;
use std::fmt::Debug;
use std::process::Abort;

/// The message of the standard's example, with zeros where it shows none.
const EXAMPLE: &[u8] = b"\0\0\0\0\0\0\0\0\0\0\0\0\0\0\0\0\0\0\0\0\
\x01F\x03ISI\x04ARPA\0\0\0\0\0\0\0\0\0\x03FOO\xc0\x14\0\0\0\0\0\0\0\0\0\0\0\0\0\0\0\0\0\0\
\xc0\x1a\0\0\0\0\0\0\0\0\0\0\0\0\0\0\0\0\0\0\0\0\0\0\0\0\0\0\0";

/// An offset in the example, a limit of pointers, the labels there and the offset after the name.
const NAMES: &[(usize, usize, &[&[u8]], usize)] = &[
    (20, 0, &[b"F", b"ISI", b"ARPA"], 32),
    (40, 1, &[b"FOO", b"F", b"ISI", b"ARPA"], 46),
    (64, 1, &[b"ARPA"], 66),
    (92, 0, &[], 93),
    (22, 0, &[b"ISI", b"ARPA"], 32),
    (44, 7, &[b"F", b"ISI", b"ARPA"], 46),
];

/// A message, a place, a level, and why no name begins there.
const FAULTS: &[(&[u8], usize, usize, PartError)] = &[
    (b"", 0, 3, PartError::Ends(0)),
    (b"\0", 1, 3, PartError::Ends(1)),
    (b"\0", 2, 3, PartError::Ends(2)),
    (b"\x01a", 0, 3, PartError::Ends(2)),
    (b"\x01a\x03bc", 0, 3, PartError::Ends(2)),
    (b"\x01a\xc0", 0, 3, PartError::Ends(2)),
    (b"\x01a\x40", 0, 3, PartError::Reserved(2)),
    (b"\x01a\x80\0", 0, 3, PartError::Reserved(2)),
    (b"\xbf\0", 0, 3, PartError::Reserved(0)),
    // A pointer to itself, to a later offset, to the labels before it, and two in a cycle.
    (b"\xc0\0", 0, 3, PartError::NotPrior(0)),
    (b"\xc0\x02\0", 0, 3, PartError::NotPrior(0)),
    (b"\x01a\xc0\0", 0, 3, PartError::NotPrior(2)),
    (b"\xc0\x02\xc0\0", 2, 3, PartError::NotPrior(0)),
    (b"\xc0\x02\xc0\0", 0, 3, PartError::NotPrior(0)),
    // The pointers that are followed are counted.
    (b"\0\xc0\0\xc0\x01", 1, 0, PartError::TooMany(1)),
    (b"\0\xc0\0\xc0\x01", 3, 1, PartError::TooMany(1)),
    (b"\x40\xc0\0\xc0\x01", 3, 2, PartError::Reserved(0)),
];

fn same<T: PartialEq + Debug + Drop>(rt: &impl Abort, place: usize, got: T, want: T) {
    assert_eq!(rt; got, want, "{place}");
}

#[test]
fn read_name_of_the_standard(rt: HostRuntime) {
    for (place, level, labels, behind) in NAMES {
        match read_name(rt.alloc(), *level, EXAMPLE, *place) {
            Ok(name) => {
                same(&rt, *place, name.behind, *behind);
                same(&rt, *place, name.labels.len(), labels.len());
                for (index, label) in labels.iter().enumerate() {
                    same(&rt, *place, name.labels[index], *label);
                }
            }
            Err(fault) => assert!(rt; false, "{place}: {fault:?}"),
        }
    }
}

#[test]
fn read_name_says_why_there_is_none(rt: HostRuntime) {
    for (message, place, level, fault) in FAULTS {
        match read_name(rt.alloc(), *level, message, *place) {
            Ok(name) => assert!(rt; false, "{message:?} {place}: {}", name.behind),
            Err(got) => same(&rt, *place, got, *fault),
        }
    }
}

#[test]
fn read_name_takes_labels_to_63_bytes(rt: HostRuntime) {
    let mut message = [b'x'; 66];
    message[0] = 63;
    message[64] = 0;
    let name = read_name(rt.alloc(), 0, &message, 0);
    assert!(rt; matches!(name, Ok(name) if name.labels[0].len() == 63 && name.behind == 65));
    let longer = [64; 66];
    let none = read_name(rt.alloc(), 0, &longer, 0);
    assert!(rt; matches!(none, Err(PartError::Reserved(0))));
}

#[test]
fn read_name_follows_a_pointer_of_fourteen_bits(rt: HostRuntime) {
    let mut message = [0u8; 1030];
    message[1023] = 1;
    message[1024] = b'a';
    message[1027] = 0b1100_0011;
    message[1028] = 0b1111_1111;
    let name = read_name(rt.alloc(), 1, &message, 1027);
    assert!(rt; matches!(name, Ok(name) if name.labels[0] == b"a".as_slice() && name.behind == 1029));
}
