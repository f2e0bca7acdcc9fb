//! Numbers of two bytes in both orders.
use example_callers::byte_orders::both_orders;

#[test]
fn numbers_in_both_orders(rt: HostRuntime) {
    for (low_first, high_first, number, rest) in [
        (b"\x02\x01;".as_slice(), b"\x01\x02;".as_slice(), 258, b";".as_slice()),
        (b"\xFF\x00", b"\x00\xFF", 255, b""),
        (b"\xFE\xFF\x01", b"\xFF\xFE\x01", 65534, b"\x01"),
    ] {
        let mut little = low_first;
        let mut big = high_first;
        assert_eq!(rt; both_orders(&mut little, &mut big), (Ok(number), Ok(number)));
        assert_eq!(rt; (little, big), (rest, rest));
    }
}

#[test]
fn bytes_that_are_too_few(rt: HostRuntime) {
    let mut little = b"\x02".as_slice();
    let mut big = b"".as_slice();
    let (low_first, high_first) = both_orders(&mut little, &mut big);
    assert!(rt; low_first.is_err());
    assert!(rt; high_first.is_err());
}
