//! Tables of INI files of any dialect, entry by entry, from Rust. In the dialect of Python the
//! expected results are those of its `configparser`.
use pergidau::ini::{entries, get, Continued, Delimiters, Dialect, Entry, Marks, Reason};

/// Formats the entries of a document, and the reason, line and column of an error.
fn told(text: &str, dialect: Dialect) -> String {
    let mut shown = String::new();
    for entry in entries(text, dialect) {
        shown += &match entry {
            Ok(Entry::Section(name)) => format!("[{name}]|"),
            Ok(Entry::Pair { key, value: Some(value) }) => format!("{key}={value}|"),
            Ok(Entry::Pair { key, value: None }) => format!("{key}|"),
            Ok(Entry::More(line)) => format!("+{line}|"),
            Err(error) => {
                let at = error.position(text);
                format!("{:?} {} {}", error.reason, at.line, at.column)
            }
        };
    }
    shown
}

const BARE: Dialect = Dialect {
    delimiters: Delimiters::Either,
    comments: Marks::Neither,
    inline_comments: Marks::Neither,
    continued: Continued::Never,
    valueless: false,
    before_sections: false,
    loose_sections: false,
};

#[test]
fn entries_of_known_dialects() {
    let rows = [
        (Dialect::PYTHON, "", ""),
        (Dialect::PYTHON, "\u{feff}[é]\n# a\n;b\nc : d\n  e\n\n f\n", "[é]|c=d|+e|+|+f|"),
        (Dialect::PYTHON, "[s]\na=\nb = c ; d\n", "[s]|a=|b=c ; d|"),
        (Dialect::DESKTOP, "[s]\n#a\n;=b:c\n d=e\n", "[s]|;=b:c|d=e|"),
        (Dialect::LENIENT, "a # b\nc=d;e ;f\n", "a|c=d;e|"),
    ];
    for (dialect, text, want) in rows {
        assert_eq!(told(text, dialect), want, "{text}");
    }
}

#[test]
fn entries_of_other_dialects() {
    let rows = [
        (Dialect { delimiters: Delimiters::Equals, ..BARE }, "[s]\na:b=c\n", "[s]|a:b=c|"),
        (Dialect { delimiters: Delimiters::Colon, ..BARE }, "[s]\na=b:c\n", "[s]|a=b=c|"),
        (BARE, "[s]\na:b=c\n#=d\n;=e\n", "[s]|a=b=c|#=d|;=e|"),
        (BARE, "[s]\na=b:c\n", "[s]|a=b:c|"),
        (Dialect { comments: Marks::NumberSign, ..BARE }, "[s]\n#a\n;=b #\n", "[s]|;=b #|"),
        (Dialect { comments: Marks::Semicolon, ..BARE }, "[s]\n;a\n#=b ;\n", "[s]|#=b ;|"),
        (Dialect { comments: Marks::Either, ..BARE }, "[s]\n;a\n#b\n", "[s]|"),
        (Dialect { inline_comments: Marks::NumberSign, ..BARE }, "[s]\na=b ;c #d\n", "[s]|a=b ;c|"),
        (Dialect { inline_comments: Marks::Semicolon, ..BARE }, "[s]\na=b #c ;d\n", "[s]|a=b #c|"),
        (
            Dialect { continued: Continued::UntilEmpty, ..BARE },
            "[s]\na=b\n c\n\n d=e\n",
            "[s]|a=b|+c|d=e|",
        ),
        (
            Dialect { continued: Continued::PastEmpty, ..BARE },
            "[s]\na=b\n c\n\n d=e\n",
            "[s]|a=b|+c|+|+d=e|",
        ),
        (Dialect { valueless: true, ..BARE }, "[s]\na\n", "[s]|a|"),
        (Dialect { before_sections: true, ..BARE }, "a=b\n", "a=b|"),
        (Dialect { loose_sections: true, ..BARE }, "[a]b]: c\n[d=e\n", "[a]b]|[d=e|"),
    ];
    for (dialect, text, want) in rows {
        assert_eq!(told(text, dialect), want, "{text}");
    }
}

#[test]
fn refused_lines() {
    let rows = [
        ("\u{feff}a = b\n", "MissingSection 1 2"),
        ("[s]\n\n  abc\nd=e\n", "[s]|MissingDelimiter 3 1"),
        ("[s]\n = b\n", "[s]|MissingKey 2 1"),
        ("[s]\né=f\n[s", "[s]|é=f|MissingDelimiter 3 1"),
        ("[]\n", "MissingSection 1 1"),
    ];
    for (text, want) in rows {
        assert_eq!(told(text, Dialect::PYTHON), want, "{text}");
    }
    let rows = [
        ("[s]\né=f\n[s", "[s]|é=f|UnclosedSection 3 1"),
        ("[]\n", "EmptySection 1 1"),
        ("[s] x\n", "TrailingText 1 1"),
    ];
    for (text, want) in rows {
        assert_eq!(told(text, BARE), want, "{text}");
    }
    let mut found = entries("[s]\na\nb=c\n", Dialect::PYTHON);
    let refused = found.nth(1).unwrap().unwrap_err();
    assert_eq!((refused.offset, refused.reason), (4, Reason::MissingDelimiter));
    assert_eq!(refused.to_string(), "missing delimiter after the key at offset 4");
    assert_eq!(found.next(), None);
}

#[test]
fn values_by_section_and_key() {
    let text = "a = 0\n[s]\na = 1\nb = 2\n  more\n[t]\na: 3\n[s]\nA\na = 4\nc = 5\n";
    let rows = [
        ("", "a", Some(Some("0"))),
        ("s", "a", Some(Some("1"))),
        ("t", "a", Some(Some("3"))),
        ("s", "A", Some(None)),
        ("s", "c", Some(Some("5"))),
        ("", "c", None),
        ("T", "a", None),
        ("s", "", None),
    ];
    for (section, key, want) in rows {
        let found = get(text, Dialect::LENIENT, section, key).unwrap();
        assert_eq!(found.map(|it| it.value), want, "[{section}] {key}");
    }
    let text = "[s]\nb = 2\n  more\nc\n";
    let mut found = get(text, Dialect::PYTHON, "s", "b").unwrap().unwrap();
    assert_eq!(found.rest.next(), Some(Ok(Entry::More("more"))));
    let error = get(text, Dialect::PYTHON, "s", "a").unwrap_err();
    assert_eq!((error.offset, error.reason), (17, Reason::MissingDelimiter));
}
