//! Numbers as integers.
use format_json_values::integer::as_i64;
use format_json_values::value::parse_value;

#[test]
fn as_i64_of_texts(rt: HostRuntime) {
    let rows = [
        ("0", Some(0)),
        ("-0", Some(0)),
        ("12", Some(12)),
        ("-345", Some(-345)),
        ("9223372036854775807", Some(i64::MAX)),
        ("9223372036854775808", None),
        ("-9223372036854775808", Some(i64::MIN)),
        ("-9223372036854775809", None),
        ("1.0", None),
        ("1e2", None),
        ("\"1\"", None),
        ("true", None),
        ("null", None),
        ("[1]", None),
        ("{}", None),
    ];
    for row in rows {
        let (text, want) = row;
        match parse_value(rt.alloc(), 1, text) {
            Ok(value) => assert_eq!(rt; as_i64(&value), want, "{text:?}"),
            Err(_) => assert!(rt; false, "{text:?}"),
        }
    }
}
