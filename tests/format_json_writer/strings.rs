//! Strings as text.
use format_json_writer::string::write_string;
use std::alloc::Global;
use test_support::refusing::Refusing;

/// A text, and what Python's `json` writes for it where it writes no more than ASCII must be
/// (`ensure_ascii=False`).
const ROWS: &[(&str, &str)] = &[
    ("", r#""""#),
    ("a", r#""a""#),
    ("\"\\/", r#""\"\\/""#),
    ("a\"b\"", r#""a\"b\"""#),
    ("\\n", r#""\\n""#),
    (
        "\u{0}\u{1}\u{2}\u{3}\u{4}\u{5}\u{6}\u{7}",
        r#""\u0000\u0001\u0002\u0003\u0004\u0005\u0006\u0007""#,
    ),
    (
        "\u{8}\t\n\u{b}\u{c}\r\u{e}\u{f}",
        r#""\b\t\n\u000b\f\r\u000e\u000f""#,
    ),
    (
        "\u{10}\u{11}\u{12}\u{13}\u{14}\u{15}\u{16}\u{17}",
        r#""\u0010\u0011\u0012\u0013\u0014\u0015\u0016\u0017""#,
    ),
    (
        "\u{18}\u{19}\u{1a}\u{1b}\u{1c}\u{1d}\u{1e}\u{1f} ",
        r#""\u0018\u0019\u001a\u001b\u001c\u001d\u001e\u001f ""#,
    ),
    ("\u{7f}\u{80}\u{2028}", "\"\u{7f}\u{80}\u{2028}\""),
    ("\u{20ac}\u{1d11e}\u{ffff}", "\"\u{20ac}\u{1d11e}\u{ffff}\""),
    ("</script>", r#""</script>""#),
    ("'", r#""'""#),
];

/// The string of section 3.2.2 of RFC 8785, and how that section writes it.
const OF_THE_STANDARD: (&str, &str) = (
    "\u{20ac}$\u{f}\nA'B\"\\\\\"/",
    "\"\u{20ac}$\\u000f\\nA'B\\\"\\\\\\\\\\\"/\"",
);

#[test]
fn write_string_as_python(rt: HostRuntime) {
    for (text, want) in ROWS {
        let mut into = String::new(rt.alloc());
        assert!(rt; write_string(text, &mut into).is_ok());
        assert_eq!(rt; into.as_str(), *want, "{text:?}");
    }
}

#[test]
fn write_string_as_the_standard(rt: HostRuntime) {
    let (text, want) = OF_THE_STANDARD;
    let mut into = String::new(rt.alloc());
    assert!(rt; write_string(text, &mut into).is_ok());
    assert_eq!(rt; into.as_str(), want);
}

#[test]
fn write_string_behind_what_is_there(rt: HostRuntime) {
    let mut into = String::new(rt.alloc());
    assert!(rt; into.push_str("{").is_ok());
    assert!(rt; write_string("a", &mut into).is_ok());
    assert!(rt; into.push_str(":").is_ok());
    assert!(rt; write_string("\t", &mut into).is_ok());
    assert_eq!(rt; into.as_str(), "{\"a\":\"\\t\"");
}

#[test]
fn write_string_refused_memory(rt: HostRuntime) {
    let text = "a\"\n\u{1}\u{20ac} and some more, so that it has to grow a few times";
    let mut met = true;
    let mut n = 0u64;
    while met {
        let heap: Refusing<Global> = Refusing::once(rt.alloc(), n);
        let mut into = String::new(&heap);
        let written = write_string(text, &mut into);
        met = heap.met();
        assert_eq!(rt; written.is_err(), met, "{n}");
        n += 1;
    }
    assert!(rt; n > 2);
}
