//! The offset of each stop, the expected input, and the unclosed string or bracket before it.
use format_toml_errors::walk::first_stop;

/// Offsets by hand, for arrays and inline tables that are not nested. Python's `tomllib` rejects each of
/// these texts but those with an integer that is too large or too many brackets.
#[test]
fn first_stop_is_the_first_character_that_no_document_has(rt: HostRuntime) {
    let rows = [
        ("a = [\n 1,\n x,\n]", 11, Some(4), "a value or `]`"),
        ("y = \"C:\\Users\"", 9, Some(4), "a hexadecimal digit of a Unicode scalar value"),
        ("a = \"\"\"\nb\n", 10, Some(4), "a character of a string or `\"\"\"`"),
        ("a = 'é\nb = 1", 7, Some(4), "a character of a string or `'`"),
        ("a = \"\\q\"", 6, Some(4), "`b`, `t`, `n`, `f`, `r`, `\"`, `\\`, `u` or `U` after `\\`"),
        ("a = 1979-02-30", 12, None, "a day from 01 to 28"),
        ("a = 1979-13-01", 10, None, "a month from 01 to 12"),
        ("a = 24:00:00", 6, None, "the end of the line"),
        ("a = 9223372036854775808", 23, None, "an integer of 64 bits"),
        ("a = 0x8000000000000000", 21, None, "an integer of 64 bits"),
        ("a = 0x7fffffffffffffff_", 22, None, "the end of the line"),
        ("a = 1__0", 6, None, "a digit"),
        ("a = 012", 7, None, "a year or an hour, or a number without leading zeros"),
        ("a = {b = 1,}", 11, Some(4), "a key"),
        ("a = [1 2]", 7, Some(4), "a comma or `]`"),
        ("a = [[1]]", 5, Some(4), "no deeper array or inline table"),
        ("port 80", 5, None, "`.` or `=`"),
        ("[a.b\n", 4, None, "`.` or `]`"),
        ("[[a]\n", 4, None, "`]`"),
        ("a = tru", 7, None, "the letter `e`"),
        ("# \u{1}", 2, None, "a character of a comment or the end of the line"),
        ("\u{feff}a = 1", 0, None, "no byte order mark"),
        ("a = 1\r", 6, None, "a line feed"),
    ];
    for (text, offset, start, wanted) in rows {
        match first_stop(rt.alloc(), 1, text) {
            Ok(Some(stop)) => {
                assert_eq!(rt; text.len() - stop.rest.len(), offset);
                assert_eq!(rt; stop.unclosed.map(|rest| text.len() - rest.len()), start);
                let said = format!(in rt.alloc(); "{}", stop.expected);
                assert!(rt; matches!(said, Ok(said) if said.as_str() == wanted));
            }
            _ => assert!(rt; false),
        }
    }
}

/// Texts of toml-test 1.5 and by the standard, which `tomllib` accepts.
#[test]
fn first_stop_is_none_of_a_document(rt: HostRuntime) {
    let rows = [
        "",
        "a = 1\r\n[b.'c'.\"d\"] # e\n[[f]]\n",
        "a = [\n1, # b\n{ c = 2 },\n]",
        "a = \"\"\"\"b\"\" \\\n c\"\"\"\"\"",
        "a = ''''''\nb = '''''c'''''",
        "a = 1979-05-27 07:32:00.999-07:00\nb = 07:32:59\nc = 2000-02-29 # d",
        "a = -9223372036854775808\nb = 0x7FFF_ffff_ffff_ffff\nc = +1_0.0e-0_1\nd = -inf",
        "a = \"\\u00e9\\U0010ffff\\\"\"",
    ];
    for text in rows {
        assert!(rt; matches!(first_stop(rt.alloc(), 2, text), Ok(None)));
    }
}
