//! Rows of words, numbers and strings. The values follow from RFC 8259, IEEE 754 and the
//! documentation of serde's data model.
mod support;

use support::{accepts, rejects};

#[test]
fn words() {
    accepts(&[("true", true), ("false", false), (" \t\r\ntrue\n", true)]);
    rejects::<bool>(&["null", "1", "\"true\"", "[]", "True", "tru", "truee", "true true", ""]);
    accepts(&[("null", ()), (" null ", ())]);
    rejects::<()>(&["0", "[]", "{}", "\"\"", "false", "nul", "NULL"]);
    accepts(&[("null", None), ("0", Some(0u8)), (" 255", Some(255))]);
    accepts(&[("null", None), ("1", Some(Some(1u8)))]);
    rejects::<Option<u8>>(&["256", "\"null\"", "[]", "nulL"]);
}

#[test]
fn integers() {
    accepts(&[("0", 0u8), ("7", 7), ("255", 255), ("\n1 ", 1)]);
    rejects::<u8>(&["256", "-1", "-0", "1.0", "1e0", "1e2", "\"1\"", "true", "null", "[1]", "{}"]);
    rejects::<u8>(&[
        "01",
        "+1",
        "0x1",
        "1_0",
        "",
        " ",
        "1 2",
        "1,",
        "-",
        "- 1",
        "99999999999999999999",
    ]);
    accepts(&[("127", 127i8), ("-128", -128), ("-1", -1), ("0", 0)]);
    rejects::<i8>(&["128", "-129", "-0", "-1.0", "-00", "-01"]);
    accepts(&[("65535", 65535u16)]);
    rejects::<u16>(&["65536"]);
    accepts(&[("32767", 32767i16), ("-32768", -32768)]);
    rejects::<i16>(&["32768", "-32769"]);
    accepts(&[("4294967295", 4294967295u32)]);
    rejects::<u32>(&["4294967296"]);
    accepts(&[("2147483647", 2147483647i32), ("-2147483648", -2147483648)]);
    rejects::<i32>(&["2147483648", "-2147483649"]);
    accepts(&[("18446744073709551615", u64::MAX)]);
    rejects::<u64>(&["18446744073709551616", "-1", "1e19"]);
    accepts(&[("9223372036854775807", i64::MAX), ("-9223372036854775808", i64::MIN)]);
    rejects::<i64>(&["9223372036854775808", "-9223372036854775809", "-99999999999999999999"]);
    accepts(&[("12", 12usize)]);
    accepts(&[("-12", -12isize)]);
}

#[test]
fn integers_of_128_bits() {
    let most = "340282366920938463463374607431768211455";
    accepts(&[("0", 0u128), ("18446744073709551616", 1 << 64), (most, u128::MAX)]);
    rejects::<u128>(&[
        "340282366920938463463374607431768211456",
        "-1",
        "-0",
        "1.0",
        "1e2",
        "\"1\"",
    ]);
    rejects::<u128>(&["null", "[]", "00", "01"]);
    let (least, most) =
        ("-170141183460469231731687303715884105728", "170141183460469231731687303715884105727");
    accepts(&[(least, i128::MIN), (most, i128::MAX), ("-0", 0), ("5", 5)]);
    rejects::<i128>(&["170141183460469231731687303715884105728", "1.5", "-1e2", "true", "-"]);
}

#[test]
fn doubles() {
    accepts(&[("0", 0.0f64), ("-0", -0.0), ("0.0", 0.0), ("-0.0", -0.0), ("1", 1.0), ("-1", -1.0)]);
    accepts(&[
        ("1.5", 1.5f64),
        ("-1.5e3", -1500.0),
        ("1E2", 100.0),
        ("1e+2", 100.0),
        ("25e-1", 2.5),
    ]);
    accepts(&[("0.1", 0.1f64), ("1e-400", 0.0), ("-1e-400", -0.0), ("0e999999999999", 0.0)]);
    // The smallest and the largest doubles, the smallest normal one, and half of the smallest.
    accepts(&[("5e-324", f64::from_bits(1)), ("4.9406564584124654e-324", f64::from_bits(1))]);
    accepts(&[("2.4703282292062327e-324", 0.0f64), ("2.4703282292062328e-324", f64::from_bits(1))]);
    accepts(&[
        ("1.7976931348623157e308", f64::MAX),
        ("2.2250738585072014e-308", f64::MIN_POSITIVE),
    ]);
}

#[test]
fn rounded_doubles() {
    // Integers that no double is equal to; those above 2^64 are read as floats.
    accepts(&[
        ("9007199254740993", 9007199254740992.0f64),
        ("9007199254740995", 9007199254740996.0),
    ]);
    accepts(&[
        ("18446744073709551616", 18446744073709551616.0f64),
        ("-9223372036854775809", i64::MIN as f64),
    ]);
    // Between 1 and the next double, 1 + 2^-52: half is rounded to 1, and a bit more to the next.
    accepts(&[
        ("1.00000000000000011102230246251565404236316680908203125", 1.0f64),
        ("1.00000000000000011102230246251565404236316680908203126", 1.0000000000000002),
    ]);
    rejects::<f64>(&[
        "1e309",
        "-1e309",
        "1e999999999999",
        "null",
        "\"1\"",
        "NaN",
        "Infinity",
        "[1]",
    ]);
    rejects::<f64>(&["1.", ".5", "1e", "1e+", "00.5", "1.5.5", "--1", "1e5.5"]);
}

#[test]
fn singles() {
    accepts(&[("0", 0.0f32), ("-0", -0.0), ("0.1", 0.1), ("-2.5", -2.5), ("1e10", 1e10)]);
    accepts(&[("3.4028235e38", f32::MAX), ("1e-45", f32::from_bits(1)), ("1e-46", 0.0)]);
    accepts(&[("16777217", 16777216.0f32), ("16777217.0", 16777216.0), ("16777219", 16777220.0)]);
    // Half of the way from 1 + 2^-23 to 1 + 2^-22 is a double, to which the first text is rounded.
    // The nearest single of that double is another than that of the text.
    accepts(&[
        ("1.00000017881393432617187499", 1.0 + f32::EPSILON),
        ("1.000000178813934326171875", 1.0 + 2.0 * f32::EPSILON),
    ]);
    // The largest single and half of a unit are infinite.
    accepts(&[("340282356779733661637539395458142568447", f32::MAX)]);
    rejects::<f32>(&[
        "340282356779733661637539395458142568448",
        "3.5e38",
        "-1e39",
        "1e400",
        "\"1\"",
    ]);
}

#[test]
fn strings() {
    let accepted = [
        ("\"\"", ""),
        ("\"a b\"", "a b"),
        ("\"\\\"\\\\\\/\"", "\"\\/"),
        ("\"\\b\\f\\n\\r\\t\"", "\u{8}\u{c}\n\r\t"),
        ("\"\\u0041\\u00e9\\u20AC\"", "Aé€"),
        ("\"\\ud834\\uDD1E\"", "\u{1D11E}"),
        ("\"\\u0000\"", "\0"),
        ("\"é€😀\u{7f}\"", "é€😀\u{7f}"),
        ("\"\\uFFFF\\ufdd0\"", "\u{FFFF}\u{FDD0}"),
        ("\"a\\nb\\\\nc\"", "a\nb\\nc"),
    ];
    accepts(&accepted.map(|(text, value)| (text, value.to_string())));
    accepts(&accepted.map(|(text, value)| (text, value.to_string().into_boxed_str())));
    rejects::<String>(&[
        "\"\\ud800\"",
        "\"\\udc00\"",
        "\"\\ud800\\u0041\"",
        "\"\\ud800a\"",
        "\"\\u12\"",
    ]);
    rejects::<String>(&[
        "\"\n\"",
        "\"\0\"",
        "\"\\x\"",
        "\"",
        "\"a",
        "\"\\",
        "'a'",
        "\"a\"\"b\"",
        "a",
    ]);
    rejects::<String>(&["1", "null", "[]", "{}", "true", "[\"a\"]"]);
}

#[test]
fn characters() {
    accepts(&[
        ("\"a\"", 'a'),
        ("\"é\"", 'é'),
        ("\"\\u0061\"", 'a'),
        ("\"😀\"", '😀'),
        ("\"\\n\"", '\n'),
    ]);
    accepts(&[("\"\\ud83d\\ude00\"", '😀'), ("\"\\u0000\"", '\0')]);
    rejects::<char>(&["\"\"", "\"ab\"", "\"e\u{301}\"", "97", "null", "[\"a\"]", "\"\\ud83d\""]);
}

#[test]
fn bytes() {
    let text = |it: &str| std::ffi::CString::new(it).unwrap();
    accepts(&[("\"ab\"", text("ab")), ("\"\\u00e9\"", text("é")), ("[97, 98]", text("ab"))]);
    rejects::<std::ffi::CString>(&["null", "1", "{}", "[256]", "[\"a\"]", "\"\\u0000\""]);
    assert_eq!(pergidau_serde::from_str::<&[u8]>("\"ab\"").unwrap(), b"ab");
    assert_eq!(serde_json::from_str::<&[u8]>("\"ab\"").unwrap(), b"ab");
    for text in ["\"a\\nb\"", "[97]", "1"] {
        assert!(pergidau_serde::from_str::<&[u8]>(text).is_err(), "{text}");
        assert!(serde_json::from_str::<&[u8]>(text).is_err(), "{text}");
    }
}
