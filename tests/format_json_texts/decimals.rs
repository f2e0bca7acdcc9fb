//! Numbers as decimals: those of Python's `decimal`, its zeros at the end taken off, where they fit.
use format_json_texts::decimal::{Decimal, DecimalError, as_decimal};

fn decimal(negative: bool, digits: u64, exponent: i32) -> Decimal {
    Decimal {
        negative,
        digits,
        exponent,
    }
}

#[test]
fn decimals(rt: HostRuntime) {
    let rows: &[(&[u8], Result<Decimal, DecimalError>)] = &[
        (b"0", Ok(decimal(false, 0, 0))),
        (b"-0", Ok(decimal(false, 0, 0))),
        (b"0.0", Ok(decimal(false, 0, 0))),
        (b"-0.00e7", Ok(decimal(false, 0, 0))),
        (b"0e99999999999999999999", Ok(decimal(false, 0, 0))),
        (b"1", Ok(decimal(false, 1, 0))),
        (b"-1", Ok(decimal(true, 1, 0))),
        (b"10", Ok(decimal(false, 1, 1))),
        (b"100000000000000000000000000000", Ok(decimal(false, 1, 29))),
        (b"1.5", Ok(decimal(false, 15, -1))),
        (b"1.50e3", Ok(decimal(false, 15, 2))),
        (b"1500", Ok(decimal(false, 15, 2))),
        (b"15E+2", Ok(decimal(false, 15, 2))),
        (b"-0.005", Ok(decimal(true, 5, -3))),
        (b"0.1", Ok(decimal(false, 1, -1))),
        (b"10e400", Ok(decimal(false, 1, 401))),
        (b"1e-400", Ok(decimal(false, 1, -400))),
        (b"-2.5E-10", Ok(decimal(true, 25, -11))),
        (b"18446744073709551615", Ok(decimal(false, 18446744073709551615, 0))),
        (b"18446744073709551616", Err(DecimalError::TooManyDigits)),
        (b"18446744073709551617", Err(DecimalError::TooManyDigits)),
        (b"184467440737095516150", Ok(decimal(false, 18446744073709551615, 1))),
        (b"1844674407370955161.5", Ok(decimal(false, 18446744073709551615, -1))),
        (b"0.18446744073709551615", Ok(decimal(false, 18446744073709551615, -20))),
        (b"1.8446744073709551616e19", Err(DecimalError::TooManyDigits)),
        (b"0.1000000000000000055511151231257827", Err(DecimalError::TooManyDigits)),
        (b"0.00000000000000000000000000000000000000000012", Ok(decimal(false, 12, -44))),
        (b"12000000000000000000000000000000000000000000.0", Ok(decimal(false, 12, 42))),
        (b"1e2147483647", Ok(decimal(false, 1, 2147483647))),
        (b"1e2147483648", Err(DecimalError::ExponentOutOfRange)),
        (b"10e2147483647", Err(DecimalError::ExponentOutOfRange)),
        (b"10e2147483646", Ok(decimal(false, 1, 2147483647))),
        (b"1e-2147483648", Ok(decimal(false, 1, -2147483648))),
        (b"1e-2147483649", Err(DecimalError::ExponentOutOfRange)),
        (b"0.1e-2147483647", Ok(decimal(false, 1, -2147483648))),
        (b"0.1e-2147483648", Err(DecimalError::ExponentOutOfRange)),
        (b"100e-2147483650", Ok(decimal(false, 1, -2147483648))),
        (b"1e9223372036854775808", Err(DecimalError::ExponentOutOfRange)),
        (b"1e-18446744073709551616", Err(DecimalError::ExponentOutOfRange)),
        (b"1e340282366920938463463374607431768211456", Err(DecimalError::ExponentOutOfRange)),
        (b"-3e+0005", Ok(decimal(true, 3, 5))),
        (b"1.000e-3", Ok(decimal(false, 1, -3))),
        (b"20.01e-1", Ok(decimal(false, 2001, -3))),
        (b"1e18446744073709551615", Err(DecimalError::ExponentOutOfRange)),
        (b"123456789.123456789", Ok(decimal(false, 123456789123456789, -9))),
        (b"-1.7976931348623157e308", Ok(decimal(true, 17976931348623157, 292))),
        (b"4.9e-324", Ok(decimal(false, 49, -325))),
        (b"3.141592653589793238", Ok(decimal(false, 3141592653589793238, -18))),
        (b"3.1415926535897932384", Err(DecimalError::TooManyDigits)),
        (b"1.00000000000000000000000000000000000001", Err(DecimalError::TooManyDigits)),
    ];
    for (number, expected) in rows {
        assert_eq!(rt; as_decimal(number), *expected);
    }
}
