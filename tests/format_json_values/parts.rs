//! Numbers and strings.

use format_json_values::number::read_number;
use format_json_values::string::read_string;

#[test]
fn numbers_are_the_longest(rt: HostRuntime) {
    let rows = [
        ("0", Some("0"), ""),
        ("-0", Some("-0"), ""),
        ("01", Some("0"), "1"),
        ("10.50e+07,", Some("10.50e+07"), ","),
        ("1.", Some("1"), "."),
        ("1e", Some("1"), "e"),
        ("1E-2x", Some("1E-2"), "x"),
        ("-", None, "-"),
        (".5", None, ".5"),
        ("+1", None, "+1"),
        ("", None, ""),
    ];
    for row in rows {
        let (text, number, left) = row;
        let mut input = text;
        match (read_number(&mut input), number) {
            (Ok(read), Some(number)) => {
                assert_eq!(rt; read, number);
                assert_eq!(rt; input, left);
            }
            (Err(_), None) => {}
            _ => assert!(rt; false),
        }
    }
}

#[test]
fn strings_have_their_escapes_undone(rt: HostRuntime) {
    let rows = [
        ("\"\"", Some("")),
        ("\"a b\" c", Some("a b")),
        ("\"\\\"\\\\\\/\\b\\f\\n\\r\\t\"", Some("\"\\/\u{8}\u{c}\n\r\t")),
        ("\"\\u00e9\\u20AC\"", Some("\u{e9}\u{20ac}")),
        ("\"\\ud834\\udd1e\"", Some("\u{1d11e}")),
        ("\"\u{1d11e}\u{7f}\"", Some("\u{1d11e}\u{7f}")),
        ("\"\\ud834\"", None),
        ("\"\\ud834\\u0041\"", None),
        ("\"\\udd1e\\ud834\"", None),
        ("\"\\u12\"", None),
        ("\"\\x\"", None),
        ("\"a\nb\"", None),
        ("\"a", None),
        ("a\"", None),
    ];
    for row in rows {
        let (text, string) = row;
        let mut input = text;
        match (read_string(rt.alloc(), &mut input), string) {
            (Ok(read), Some(string)) => assert_eq!(rt; read.as_str(), string),
            (Err(_), None) => {}
            _ => assert!(rt; false),
        }
    }
}
