//! Fields of a name, in letters of either case (RFC 9110, sections 5.1 and 5.3).
use format_http::heads::field_line::Field;
use format_http::heads::named::{field, next_field};

const FIELDS: &[Field] = &[
    Field { name: b"Via", value: b"1.0 fred" },
    Field { name: b"Host", value: b"a" },
    Field { name: b"VIA", value: b"1.1 p.example.com" },
    Field { name: b"Vi", value: b"x" },
    Field { name: b"via", value: b"" },
];

/// A name, and the values of its fields.
const NAMES: &[(&[u8], &[&[u8]])] = &[
    (b"via", &[b"1.0 fred", b"1.1 p.example.com", b""]),
    (b"vIA", &[b"1.0 fred", b"1.1 p.example.com", b""]),
    (b"HOST", &[b"a"]),
    (b"vi", &[b"x"]),
    (b"Hos", &[]),
    (b"Hosts", &[]),
    (b"", &[]),
];

#[test]
fn next_field_of_names(rt: HostRuntime) {
    for (name, values) in NAMES {
        let mut left = FIELDS;
        for value in *values {
            let Some((found, behind)) = next_field(left, name) else {
                assert!(rt; false);
                return;
            };
            assert!(rt; found.value == *value, "{name:?}");
            left = behind;
        }
        assert!(rt; next_field(left, name) == None, "{name:?}");
    }
}

#[test]
fn field_of_names(rt: HostRuntime) {
    for (name, values) in NAMES {
        let found = field(FIELDS, name).map(|it| it.value);
        assert!(rt; found == values.first().copied(), "{name:?}");
    }
}
