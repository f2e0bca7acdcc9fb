//! Rejected documents.
use super::lines::lines_of;
use format_toml_tree::build::{TreeError, build};
use format_toml_tree::roles::Reason;

/// A document, the number of its first invalid statement, from 0, and the reason. The first are from
/// toml.io/en/v1.0.0 (Keys to Array of Tables), the following from toml-test (invalid: table,
/// array, inline-table, key), with integers for strings. Python's `tomllib` rejects the text up to
/// and including that statement, and accepts the lines before it.
const ROWS: &[(&str, usize, Reason)] = &[
    ("name = 1\nname = 2", 1, Reason::Defined),
    ("spelling = 1\nspelling = 2", 1, Reason::Defined),
    ("fruit.apple = 1\nfruit.apple.smooth = 2", 1, Reason::NoTable),
    ("fruit.apple.smooth = 2\nfruit.apple = 1", 1, Reason::Defined),
    ("a = 1\nb = 2\na = 3\na = 4", 2, Reason::Defined),
    ("[fruit]\napple = 1\n\n[fruit]\norange = 2", 2, Reason::Defined),
    ("[fruit]\napple = 1\n\n[fruit.apple]\ntexture = 2", 2, Reason::Defined),
    ("[fruit]\napple.color = 1\napple.taste.sweet = 2\n[fruit.apple]", 3, Reason::Defined),
    ("[fruit]\napple.color = 1\napple.taste.sweet = 2\n[fruit.apple.taste]", 3, Reason::Defined),
    ("[product]\ntype = { name = 1 }\ntype.edible = 2", 2, Reason::Closed),
    ("[product]\ntype.name = 1\ntype = { edible = 2 }", 2, Reason::Defined),
    ("[fruit.physical]\ncolor = 1\nshape = 2\n\n[[fruit]]\nname = 3", 3, Reason::NoTables),
    ("fruits = []\n\n[[fruits]]", 1, Reason::NoTables),
    ("[[fruits]]\nname = 1\n\n[[fruits.varieties]]\nname = 2\n\n[fruits.varieties]\nname = 3", 4, Reason::Defined),
    ("[[fruits]]\nname = 1\n\n[fruits.physical]\ncolor = 2\n\n[[fruits.physical]]\ncolor = 3", 4, Reason::NoTables),
    ("[a.b.c]\nz = 9\n[a]\nb.c.t = 1", 3, Reason::Closed),
    ("[a.b.c.d]\nz = 9\n[a]\nb.c.d.k.t = 1", 3, Reason::Closed),
    ("[[a.b]]\n[a]\nb.y = 2", 2, Reason::Closed),
    ("[a]\nb = 1\n[a.b]\nc = 2", 2, Reason::Defined),
    ("[t1]\nt2.t3.v = 0\n[t1.t2]", 2, Reason::Defined),
    ("[t1]\nt2.t3.v = 0\n[t1.t2.t3]", 2, Reason::Defined),
    ("[a]\n[a]", 1, Reason::Defined),
    ("[a.b]\n[a]\n[a]", 2, Reason::Defined),
    ("[a.b]\n[a.b]", 1, Reason::Defined),
    ("[tbl]\n[[tbl]]", 1, Reason::NoTables),
    ("[[tbl]]\n[tbl]", 1, Reason::Defined),
    ("a = [ 1 ]\n[[a]]", 1, Reason::NoTables),
    ("a = { }\n[a]", 1, Reason::Defined),
    ("a = { }\n[a.b]", 1, Reason::Closed),
    ("a = { }\n[[a.b]]", 1, Reason::Closed),
    ("a = { }\na.b = 1", 1, Reason::Closed),
    ("a = 1\n[a.b]", 1, Reason::NoTable),
    ("a = [ { b = 1 } ]\n[a.c]", 1, Reason::NoTable),
    ("a = [ { b = 1 } ]\na.c = 1", 1, Reason::NoTable),
    ("a = { b = 1, b = 2 }", 0, Reason::Defined),
    ("a = { b.c = 1, b = 2 }", 0, Reason::Defined),
    ("a = { b = 1, b.c = 2 }", 0, Reason::NoTable),
    ("a = { b = { c = 1 }, b.d = 2 }", 0, Reason::Closed),
    ("a = { b.c = 1, b = { d = 2 } }", 0, Reason::Defined),
    ("x = 1\na = [ 1, { b = 1, b = 2 } ]", 1, Reason::Defined),
    ("a = [ [ { b = { c = 1, c = 2 } } ] ]", 0, Reason::Defined),
    ("a.b = { c = 1 }\na.b.d = 2", 1, Reason::Closed),
    ("[a]\nb = { }\n[a.b.c]", 2, Reason::Closed),
    ("[[a]]\nb = 1\n[[a.b]]", 2, Reason::NoTables),
    ("[[a]]\n[a.b]\n[a.b]", 2, Reason::Defined),
    ("[[a]]\nb.c = 1\n[a.b]", 2, Reason::Defined),
    ("a.b.c = 1\n[a.b]", 1, Reason::Defined),
    ("a.b.c = 1\n[a]", 1, Reason::Defined),
    ("a.b = 1\n[[a]]", 1, Reason::NoTables),
    ("a.b = 1\na.b.c = 2", 1, Reason::NoTable),
    ("[a]\nb = 1\nb.c = 2", 2, Reason::NoTable),
    ("[a.b]\n[a]\nb = 1", 2, Reason::Defined),
    ("[[a.b]]\n[a]\nb = 1", 2, Reason::Defined),
    ("\n[a]\n\n[b]\nc = 1\n[a]\nc = 1\n[b]", 3, Reason::Defined),
];

#[test]
fn build_names_the_first_line(rt: HostRuntime) {
    for (text, line, why) in ROWS {
        match lines_of(rt.alloc(), text) {
            Ok(lines) => match build(rt.alloc(), 9, lines.as_slice()) {
                Ok(_) => assert!(rt; false, "{text:?}"),
                Err(fault) => {
                    let want = TreeError::Invalid { statement: *line, why: *why };
                    assert_eq!(rt; fault, want, "{text:?}");
                }
            },
            Err(_) => assert!(rt; false, "{text:?}"),
        }
    }
}

#[test]
fn faults_say_the_line_and_why(rt: HostRuntime) {
    let rows = [
        (TreeError::OutOfMemory, "out of memory"),
        (TreeError::Invalid { statement: 0, why: Reason::Defined }, "statement 1: key is already defined"),
        (TreeError::Invalid { statement: 8, why: Reason::NoTable }, "statement 9: key is not a table"),
        (TreeError::Invalid { statement: 1, why: Reason::Closed }, "statement 2: table cannot be extended"),
        (
            TreeError::Invalid { statement: 2, why: Reason::NoTables },
            "statement 3: key is not an array of tables",
        ),
        (
            TreeError::Invalid { statement: 0, why: Reason::TooDeep },
            "statement 1: table or array is nested too deep",
        ),
    ];
    for (fault, wanted) in rows {
        let said = format!(in rt.alloc(); "{fault}").unwrap();
        assert_eq!(rt; said.as_str(), wanted);
    }
}
