//! Documents and their entries. The expected entries of each row are those of Python's
//! `configparser`; the texts of the first rows contain the kinds of line of its documentation
//! ("Supported INI File Structure").
use format_ini::dialect::{Continued, Delimiters, Dialect, Marks};
use format_ini::documents::read_document;
use format_ini::lines::Entry;
use std::alloc::Global;
use std::process::Abort;

/// Appends a text.
fn put(rt: &impl Abort, shown: &mut Vec<u8, Global>, text: &str) {
    assert!(rt; shown.extend_from_slice(text.as_bytes()).is_ok());
}

/// Checks the entries of a document: one line for each entry, a section in brackets, a pair with
/// `=` between, a key without a value by itself, and a continued line after `+`.
fn says(rt: &impl Abort, alloc: Global, dialect: Dialect, text: &str, wanted: &str) {
    match read_document(alloc, dialect, text) {
        Ok(entries) => {
            let mut shown = Vec::new(alloc);
            for entry in entries.iter() {
                match entry {
                    Entry::Section(name) => {
                        put(rt, &mut shown, "[");
                        put(rt, &mut shown, name);
                        put(rt, &mut shown, "]");
                    }
                    Entry::Pair { key, value } => {
                        put(rt, &mut shown, key);
                        if let Some(value) = value {
                            put(rt, &mut shown, "=");
                            put(rt, &mut shown, value);
                        }
                    }
                    Entry::More(line) => {
                        put(rt, &mut shown, "+");
                        put(rt, &mut shown, line);
                    }
                }
                put(rt, &mut shown, "\n");
            }
            assert_eq!(rt; shown.as_slice(), wanted.as_bytes());
        }
        Err(_) => assert!(rt; false),
    }
}

/// Documents in the dialect of Python.
const PYTHON: &[(&str, &str)] = &[
    ("", ""),
    ("[Simple]\nkey=value\n", "[Simple]\nkey=value\n"),
    (
        "[s]\nspaces in keys=allowed\nspaces in values=allowed as well\n",
        "[s]\nspaces in keys=allowed\nspaces in values=allowed as well\n",
    ),
    ("[s]\nround the mark = obviously\n", "[s]\nround the mark=obviously\n"),
    ("[s]\nanother : colon\n", "[s]\nanother=colon\n"),
    ("[s]\na = b = c : d\n", "[s]\na=b = c : d\n"),
    ("[s]\na : b = c\n", "[s]\na=b = c\n"),
    ("[s]\nempty =\n", "[s]\nempty=\n"),
    ("[s]\nquoted = \"a b\" 'c'\n", "[s]\nquoted=\"a b\" 'c'\n"),
    ("[s]\na.b-c/d = 1\n", "[s]\na.b-c/d=1\n"),
    ("# one\n; two\n  # three\n[s]\n", "[s]\n"),
    ("[s]\na = b # no comment\n", "[s]\na=b # no comment\n"),
    ("[s]\r\na = b\r\n", "[s]\na=b\n"),
    ("[s]\n\ta\t=\tb\t\n", "[s]\na=b\n"),
    ("[ s t ]\n", "[ s t ]\n"),
    ("  [s]  \n  a = b", "[s]\na=b\n"),
    ("\u{feff}[s]\na = b\n", "[s]\na=b\n"),
    ("[gr\u{f6}\u{df}e]\nh\u{f6}he = \u{20ac}\n", "[gr\u{f6}\u{df}e]\nh\u{f6}he=\u{20ac}\n"),
    ("[s]\na = one\n  two\n  three\nb = c\n", "[s]\na=one\n+two\n+three\nb=c\n"),
    ("[s]\na =\n  one\n   two\n", "[s]\na=\n+one\n+two\n"),
    ("[s]\na = one\n\n  two\n", "[s]\na=one\n+\n+two\n"),
    ("[s]\na = one\n  # not told\n  two\n", "[s]\na=one\n+two\n"),
    ("[s]\na = one\n  [t]\n  b = c\n", "[s]\na=one\n+[t]\n+b = c\n"),
    ("[s]\n  a = one\n  b = c\n    two\n a = d\n", "[s]\na=one\nb=c\n+two\na=d\n"),
    ("[s]:\na = b\n", "[s]\na=b\n"),
    ("[s] t\na = 1\n", "[s]\na=1\n"),
    ("[s]=1\nb = 2\n", "[s]\nb=2\n"),
    ("[a]b]\nc = d\n", "[a]b]\nc=d\n"),
    ("[a][b]\nc = 1\n", "[a][b]\nc=1\n"),
    ("[]]\na = 1\n", "[]]\na=1\n"),
    ("[]x]\na = 1\n", "[]x]\na=1\n"),
    ("[s]\n[q=1\n", "[s]\n[q=1\n"),
    ("[s]\n[]: c\n", "[s]\n[]=c\n"),
    ("[s]\n[ = 1\n", "[s]\n[=1\n"),
    ("[s]\n[t: c] d\n", "[s]\n[t: c]\n"),
    ("[s]\na = b\n[t = c\n", "[s]\na=b\n[t=c\n"),
];

#[test]
fn the_dialect_of_python(rt: HostRuntime) {
    for (text, wanted) in PYTHON {
        says(&rt, rt.alloc(), Dialect::python(), text, wanted);
    }
}

/// Documents in dialects that differ from Python's in one thing.
#[test]
fn dialects_that_differ_in_one_thing(rt: HostRuntime) {
    let equals = Dialect {
        delimiters: Delimiters::Equals,
        ..Dialect::python()
    };
    says(&rt, rt.alloc(), equals, "[s]\na:b = c\n", "[s]\na:b=c\n");
    let colon = Dialect {
        delimiters: Delimiters::Colon,
        ..Dialect::python()
    };
    says(&rt, rt.alloc(), colon, "[s]\na=b : c\n", "[s]\na=b=c\n");
    let valueless = Dialect {
        valueless: true,
        ..Dialect::python()
    };
    says(&rt, rt.alloc(), valueless, "[s]\nskip-bdb\na = b\nc\n", "[s]\nskip-bdb\na=b\nc\n");
    says(&rt, rt.alloc(), valueless, "[s]\n[]\n[a\n", "[s]\n[]\n[a\n");
    let semicolon = Dialect {
        comments: Marks::Semicolon,
        ..Dialect::python()
    };
    says(&rt, rt.alloc(), semicolon, "[s]\n# a = b\n; c\n", "[s]\n# a=b\n");
    let neither = Dialect {
        comments: Marks::Neither,
        ..Dialect::python()
    };
    says(&rt, rt.alloc(), neither, "[s]\n#a = b\n;c = d\n", "[s]\n#a=b\n;c=d\n");
    let inline = Dialect {
        inline_comments: Marks::Semicolon,
        ..Dialect::python()
    };
    says(&rt, rt.alloc(), inline, "[s] ; t\na = b;c ; d\ne = # f\n", "[s]\na=b;c\ne=# f\n");
    let until_empty = Dialect {
        continued: Continued::UntilEmpty,
        ..Dialect::python()
    };
    says(&rt, rt.alloc(), until_empty, "[s]\na = b\n  c\n\n  d = e\n", "[s]\na=b\n+c\nd=e\n");
    let before = Dialect {
        before_sections: true,
        ..Dialect::python()
    };
    says(&rt, rt.alloc(), before, "a = b\n[s]\nc = d\n", "a=b\n[s]\nc=d\n");
}

/// A desktop entry as in its specification, shortened.
#[test]
fn a_desktop_entry(rt: HostRuntime) {
    let text = "[Desktop Entry]\nVersion=1.0\nName=Foo Viewer\nName[de]=Betrachter\n# see\n\n\
        Exec=fooview %F\nMimeType=image/x-foo;\n\n[Desktop Action Gallery]\n Exec=fooview -g\n";
    let wanted = "[Desktop Entry]\nVersion=1.0\nName=Foo Viewer\nName[de]=Betrachter\n\
        Exec=fooview %F\nMimeType=image/x-foo;\n[Desktop Action Gallery]\nExec=fooview -g\n";
    says(&rt, rt.alloc(), Dialect::desktop(), text, wanted);
}

#[test]
fn the_dialect_that_reads_most(rt: HostRuntime) {
    let text = "top\nuser = me # here\n[s];t = u\n= v\n";
    says(&rt, rt.alloc(), Dialect::lenient(), "top\nuser = me # here\n[s] ; t\n  u\n", "top\nuser=me\n[s]\nu\n");
    says(&rt, rt.alloc(), Dialect::lenient(), "[s];t\n[a]b] # c\n[d\n", "[s]\n[a]b]\n[d\n");
    assert!(rt; read_document(rt.alloc(), Dialect::lenient(), text).is_err());
}
