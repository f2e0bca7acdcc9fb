//! Numbers as integers: those of Python's `int`, where it is in range.
use format_json_extents::integer::{as_i64, as_u64};

/// A number, and what it is with a sign and without.
const NUMBERS: &[(&[u8], Option<i64>, Option<u64>)] = &[
    (b"0", Some(0), Some(0)),
    (b"-0", Some(0), None),
    (b"-12", Some(-12), None),
    (b"1.0", None, None),
    (b"1e2", None, None),
    (b"9223372036854775807", Some(i64::MAX), Some(9223372036854775807)),
    (b"-9223372036854775808", Some(i64::MIN), None),
    (b"9223372036854775808", None, Some(9223372036854775808)),
    (b"-9223372036854775809", None, None),
    (b"18446744073709551615", None, Some(u64::MAX)),
    (b"18446744073709551616", None, None),
    (b"100000000000000000000000000000", None, None),
];

#[test]
fn integers(rt: HostRuntime) {
    for (number, signed, unsigned) in NUMBERS {
        assert_eq!(rt; as_i64(number), *signed);
        assert_eq!(rt; as_u64(number), *unsigned);
    }
}
