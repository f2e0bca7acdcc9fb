//! Members of objects by name, and strings compared with names. The texts of escapes are those of
//! RFC 8259, section 7, the reference tokens those of RFC 6901, section 5.
use format_json_extents::members::{Search, find_member};
use format_json_extents::names::compare;

/// A string, a name, whether the name is a reference token, and whether they are equal.
const NAMES: &[(&[u8], &[u8], bool, bool)] = &[
    (b"\"\"", b"", false, true),
    (b"\"\"", b"a", false, false),
    (b"\"a\": 1", b"a", false, true),
    (b"\"ab\"", b"a", false, false),
    (b"\"a\"", b"ab", false, false),
    (b"\"\\u0061\"", b"a", false, true),
    (b"\"\\u0061b\\n\\\"\"", b"ab\n\"", false, true),
    (b"\"\\u00e9\\ud83d\\ude00\"", b"\xc3\xa9\xf0\x9f\x98\x80", false, true),
    (b"\"\\ud83d\\ude00\"", b"\xf0\x9f\x98\x81", false, false),
    (b"\"m~n\"", b"m~n", false, true),
    (b"\"m~n\"", b"m~0n", true, true),
    (b"\"a\\/b\"", b"a~1b", true, true),
    (b"\"~1\"", b"~01", true, true),
    (b"\"m~0n\"", b"m~0n", true, false),
];

/// An object, a name, and the result of a search for it: the number of remaining bytes if found.
const MEMBERS: &[(&[u8], &[u8], Search, usize)] = &[
    (b"{\"\\u0061\":1}", b"a", Search::Found, 3),
    (b" , {\"b\":{\"a\":0},\"a\" :1,\"a\":2}", b"a", Search::Found, 10),
    (b"{\"a\": [1], \"b\": 2}]", b"b", Search::Found, 5),
    (b"{\"a\":1}", b"b", Search::Missing, 1),
    (b"{ }", b"a", Search::Missing, 2),
    (b"[1]", b"a", Search::Invalid, 3),
    (b"", b"a", Search::Invalid, 0),
    (b"{1:2}", b"a", Search::Invalid, 4),
    (b"{\"b\":[[]],\"a\":1}", b"a", Search::Invalid, 15),
];

#[test]
fn names(rt: HostRuntime) {
    for (string, name, token, same) in NAMES {
        match compare(*token, string, name) {
            Some((found, _)) => assert_eq!(rt; found, *same, "{string:?}"),
            None => panic!(rt; "{string:?}"),
        }
    }
    for bytes in [b"a".as_slice(), b"\"a".as_slice(), b"\"\\x\"".as_slice(), b"".as_slice()] {
        assert!(rt; compare(false, bytes, b"a").is_none(), "{bytes:?}");
    }
}

#[test]
fn members(rt: HostRuntime) {
    for (object, name, search, left) in MEMBERS {
        let (found, rest) = find_member(1, false, object, name);
        assert_eq!(rt; found, *search, "{object:?}");
        assert_eq!(rt; rest.len(), *left, "{object:?}");
    }
}
