//! The values in arrays and objects, in sequence, by the grammar of RFC 8259.
use format_json_extents::walk::{Kind, is_end, kind_of, read_next};

/// A maximum nesting depth, bytes, the next value there with its kind, and the rest.
const NEXT: &[(usize, &[u8], &[u8], Kind, &[u8])] = &[
    (0, b"null", b"null", Kind::Null, b""),
    (0, b" false]", b"false", Kind::False, b"]"),
    (0, b",true ,", b"true", Kind::True, b" ,"),
    (0, b" ,\n-1.5e3}", b"-1.5e3", Kind::Number, b"}"),
    (0, b"0", b"0", Kind::Number, b""),
    (0, b"9", b"9", Kind::Number, b""),
    (0, b"\t\"a\\\"\" : 1", b"\"a\\\"\"", Kind::String, b" : 1"),
    (0, b" : 1", b"1", Kind::Number, b""),
    (1, b", [ ], 2", b"[ ]", Kind::Array, b", 2"),
    (2, b"{\"a\": [1]}]", b"{\"a\": [1]}", Kind::Object, b"]"),
];

/// A maximum nesting depth, and bytes without a next value.
const NONE: &[(usize, &[u8])] = &[
    (9, b""),
    (9, b" "),
    (9, b","),
    (9, b"]"),
    (9, b", ]"),
    (9, b",,1"),
    (9, b",:1"),
    (9, b"nul"),
    (0, b"[]"),
    (1, b", [[]]"),
];

/// Bytes that are the end of the contents of an array or an object, and bytes that are not.
const ENDS: &[&[u8]] = &[b"", b" \t\r\n", b"]", b"}", b" ],", b"\n}}"];
const NO_ENDS: &[&[u8]] = &[b",", b"[", b" {", b"1", b", ]", b":", b"\""];

#[test]
fn next_values(rt: HostRuntime) {
    for (level, bytes, value, kind, left) in NEXT {
        let mut input = *bytes;
        match read_next(*level, &mut input) {
            Some(found) => {
                assert_eq!(rt; found, *value);
                assert_eq!(rt; kind_of(found), *kind);
            }
            None => panic!(rt; "{bytes:?}"),
        }
        assert_eq!(rt; input, *left);
        assert!(rt; !is_end(bytes));
    }
    for (level, bytes) in NONE {
        let mut input = *bytes;
        assert!(rt; read_next(*level, &mut input).is_none(), "{bytes:?}");
        assert_eq!(rt; input, *bytes);
    }
}

#[test]
fn ends(rt: HostRuntime) {
    for bytes in ENDS {
        assert!(rt; is_end(bytes), "{bytes:?}");
    }
    for bytes in NO_ENDS {
        assert!(rt; !is_end(bytes), "{bytes:?}");
    }
}
