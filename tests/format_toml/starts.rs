//! Where statements begin, by hand.
use format_toml::starts::statement_start;

#[test]
fn statement_start_goes_over_lines_of_toml(rt: HostRuntime) {
    let text = "a = [\n1,\n]\n\n# of b\nb = \"\"\"\nx\n\n\"\"\"\r\n \r\n[c]\n";
    let rows = [
        (0, Some(text)),
        (1, Some("b = \"\"\"\nx\n\n\"\"\"\r\n \r\n[c]\n")),
        (2, Some("[c]\n")),
        (3, None),
    ];
    for (number, wanted) in rows {
        assert!(rt; statement_start(rt.alloc(), 1, text, number) == Ok(wanted));
    }
    for blank in ["", "\n", "# a = 1", " \t\r\n#\n"] {
        assert!(rt; statement_start(rt.alloc(), 0, blank, 0) == Ok(None), "{blank:?}");
    }
    assert!(rt; statement_start(rt.alloc(), 0, "\n  a = 1", 0) == Ok(Some("  a = 1")));
    // The first line is none of the level.
    assert!(rt; statement_start(rt.alloc(), 0, text, 0) == Ok(None));
}
