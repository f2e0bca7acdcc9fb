//! Files of settings. The pairs are those that Python's `partition('=')` gives of each line.
use examples::settings_file::parse_settings;
use winnow::error::ParseFault;

type Pairs = &'static [(&'static [u8], &'static [u8])];

/// A file, and its settings; or none, where it is no such file.
const ROWS: &[(&[u8], Option<Pairs>)] = &[
    (b"", Some(&[])),
    (b"a=\n", Some(&[(b"a", b"")])),
    (b"width=12\n", Some(&[(b"width", b"12")])),
    (b"a=b=c\n", Some(&[(b"a", b"b=c")])),
    (b"a==\n", Some(&[(b"a", b"=")])),
    (b" a = b \r\n", Some(&[(b" a ", b" b \r")])),
    (b"a=1\nb=2\na=3\n", Some(&[(b"a", b"1"), (b"b", b"2"), (b"a", b"3")])),
    (b"\xff=\xfe\x00\n", Some(&[(b"\xff", b"\xfe\x00")])),
    (b"\n", None),
    (b"=\n", None),
    (b"=a\n", None),
    (b"a\n", None),
    (b"a=b", None),
    (b"a=b\n\n", None),
    (b"a=b\nc", None),
    (b"a\n=b\n", None),
];

#[test]
fn settings_are_those_of_the_lines(rt: HostRuntime) {
    for (file, want) in ROWS {
        match (parse_settings(rt.alloc(), file), want) {
            (Ok(settings), Some(pairs)) => {
                assert_eq!(rt; settings.len(), pairs.len(), "{file:?}");
                for (at, (key, value)) in settings.iter().enumerate() {
                    assert_eq!(rt; *key, pairs[at].0, "{file:?}");
                    assert_eq!(rt; *value, pairs[at].1, "{file:?}");
                }
            }
            (got, want) => assert!(rt; got.is_err() && want.is_none(), "{file:?}"),
        }
    }
}

/// A file that is none, and the byte where that is seen.
const REFUSED: &[(&[u8], usize)] = &[
    (b"a=b\n=c\n", 4),
    (b"a=b\n\n", 4),
    (b"a=b\nc=d\ne", 8),
];

#[test]
fn faults_say_where_the_settings_end(rt: HostRuntime) {
    for (file, at) in REFUSED {
        match parse_settings(rt.alloc(), file) {
            Err(ParseFault::Invalid(error)) => assert_eq!(rt; error.offset(), *at, "{file:?}"),
            _ => assert!(rt; false, "{file:?}"),
        }
    }
}
